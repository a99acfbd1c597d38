'use strict';
// The numbers in the answers, line by line. A line of the chart breaks where there is no number.

const SVG = 'http://www.w3.org/2000/svg';
const EDGES = { left: 64, right: 14, top: 10, bottom: 24 };

function drawn(name, attributes, text) {
  const made = document.createElementNS(SVG, name);
  for (const [key, value] of Object.entries(attributes)) made.setAttribute(key, value);
  if (text !== undefined) made.textContent = text;
  return made;
}

// The round numbers from the lowest to the highest, about five.
function ticksOf(low, high) {
  const rough = (high - low) / 5;
  const power = 10 ** Math.floor(Math.log10(rough));
  const step = Math.max([1, 2, 5, 10].find((factor) => factor * power >= rough) * power, 1);
  // Of very large numbers the sum with a step may be the number itself.
  const first = Math.ceil(low / step) * step;
  return Array.from({ length: 7 }, (_, number) => first + number * step).filter((tick) => tick <= high);
}

// From the lowest to the highest value, with zero where it is near.
function rangeOf(series) {
  let low = Infinity;
  let high = -Infinity;
  for (const { values } of series) {
    for (const value of values) {
      if (value < low) low = value;
      if (value > high) high = value;
    }
  }
  if (low > 0 && low < high / 2) low = 0;
  if (high < 0 && high > low / 2) high = 0;
  const least = Math.max(Math.abs(high) / 1e6, 1);
  return low === high ? [low - least, high + least] : [low, high];
}

class Chart {
  constructor(svg, legend) {
    Object.assign(this, { svg, legend });
    this.show({ at: [], series: [], left: 0 });
    new ResizeObserver(() => this.draw()).observe(svg);
  }

  show(data) {
    this.data = data;
    this.pointed = -1;
    this.draw();
    this.drawLegend();
  }

  // Asked once for a drawing, since the browser lays out the page for it.
  measure() {
    const { width, height } = this.svg.getBoundingClientRect();
    this.size = { width, height, wide: width - EDGES.left - EDGES.right, high: height - EDGES.top - EDGES.bottom };
  }

  draw() {
    this.measure();
    const { width, height } = this.size;
    this.svg.setAttribute('viewBox', `0 0 ${width} ${height}`);
    this.svg.replaceChildren();
    const { series } = this.data;
    if (series.length === 0 || width === 0) {
      this.svg.append(drawn('text', { x: width / 2, y: height / 2, 'text-anchor': 'middle' }, 'No number to draw'));
      return;
    }
    this.range = rangeOf(series);
    this.drawGrid();
    series.forEach((one, number) => this.drawSeries(one, number));
    this.hair = drawn('g', { class: 'hair' });
    this.svg.append(this.hair);
    this.drawHair();
  }

  x(index) {
    const { at } = this.data;
    const [first, last] = [at[0], at[at.length - 1]];
    return EDGES.left + this.size.wide * (first === last ? 0.5 : (at[index] - first) / (last - first));
  }

  y(value) {
    const [low, high] = this.range;
    return EDGES.top + this.size.high * (1 - (value - low) / (high - low));
  }

  drawGrid() {
    const { width, height } = this.size;
    for (const tick of ticksOf(...this.range)) {
      const y = this.y(tick);
      this.svg.append(drawn('line', { class: tick === 0 ? 'zero' : 'grid', x1: EDGES.left, x2: width - EDGES.right, y1: y, y2: y }));
      this.svg.append(drawn('text', { x: EDGES.left - 8, y: y + 4, 'text-anchor': 'end' }, tick.toLocaleString('en')));
    }
    const { at } = this.data;
    this.svg.append(drawn('text', { x: EDGES.left, y: height - 6 }, `line ${at[0] + 1}`));
    this.svg.append(drawn('text', { x: width - EDGES.right, y: height - 6, 'text-anchor': 'end' }, `line ${at[at.length - 1] + 1}`));
  }

  drawSeries({ values }, number) {
    const { wide } = this.size;
    const path = values.length > 2 * wide ? this.pathOfColumns(values) : this.pathOfPoints(values);
    this.svg.append(drawn('path', { class: `series series-${number}`, d: path }));
    if (values.length > wide / 8) return;
    values.forEach((value, index) => {
      if (!Number.isNaN(value)) this.svg.append(drawn('circle', { class: `dot series-${number}`, cx: this.x(index), cy: this.y(value), r: 2.5 }));
    });
  }

  pathOfPoints(values) {
    const steps = [];
    const { at } = this.data;
    const { wide } = this.size;
    const [first, last] = [at[0], at[at.length - 1]];
    let joins = false;
    values.forEach((value, index) => {
      if (Number.isNaN(value)) {
        joins = false;
        return;
      }
      const x = EDGES.left + wide * (first === last ? 0.5 : (at[index] - first) / (last - first));
      const y = this.y(value);
      // A number between two that are none is a short stroke.
      steps.push(`${joins ? 'L' : 'M'}${x.toFixed(1)} ${y.toFixed(1)}`);
      if (!joins) steps.push('h0.01');
      joins = true;
    });
    return steps.join('');
  }

  // Of very many values a stroke for each column of pixels, from the lowest to the highest.
  pathOfColumns(values) {
    const count = Math.floor(this.size.wide);
    const steps = [];
    for (let column = 0; column < count; column++) {
      const from = Math.floor(column * values.length / count);
      const to = Math.max(Math.floor((column + 1) * values.length / count), from + 1);
      let low = Infinity;
      let high = -Infinity;
      for (let index = from; index < Math.min(to + 1, values.length); index++) {
        if (values[index] < low) low = values[index];
        if (values[index] > high) high = values[index];
      }
      if (low <= high) steps.push(`M${EDGES.left + column} ${this.y(high).toFixed(1)}V${(this.y(low) + 0.5).toFixed(1)}`);
    }
    return steps.join('');
  }

  drawLegend() {
    const { series, left } = this.data;
    const names = series.filter(({ name }) => name !== '' || series.length > 1);
    const entries = names.map(({ name }, number) => element('span', 'entry', element('b', `series-${number}`, '●'), ` ${name || '""'}`));
    if (left > 0) entries.push(element('span', 'entry', `and ${left} more`));
    this.legend.replaceChildren(...entries);
  }

  // The number of the answer nearest to a place on the screen.
  indexAt(x) {
    const { at } = this.data;
    if (at.length === 0) return -1;
    const [first, last] = [at[0], at[at.length - 1]];
    return this.indexOf(first + Math.round((x - EDGES.left) / this.size.wide * (last - first)));
  }

  // The number of the answer nearest to a line.
  indexOf(line) {
    const { at } = this.data;
    let [low, high] = [0, at.length - 1];
    while (low < high) {
      const middle = (low + high) >> 1;
      if (at[middle] < line) low = middle + 1;
      else high = middle;
    }
    return low > 0 && line - at[low - 1] < at[low] - line ? low - 1 : low;
  }

  point(index) {
    this.pointed = index;
    this.drawHair();
  }

  drawHair() {
    if (!this.hair) return;
    this.hair.replaceChildren();
    const { at, series } = this.data;
    if (this.pointed < 0 || this.pointed >= at.length) return;
    const x = this.x(this.pointed);
    this.hair.append(drawn('line', { x1: x, x2: x, y1: EDGES.top, y2: EDGES.top + this.size.high }));
    series.forEach(({ values }, number) => {
      const value = values[this.pointed];
      if (!Number.isNaN(value)) this.hair.append(drawn('circle', { class: `dot series-${number}`, cx: x, cy: this.y(value), r: 4 }));
    });
  }
}
