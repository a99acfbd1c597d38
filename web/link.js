'use strict';
// The address of what is on the page: after its # stand the name of an example, or the query and the items, packed. Nothing after # is
// ever sent to a server.

async function packedInto(query, items) {
  const bytes = await deflated(new TextEncoder().encode(JSON.stringify([query, items])), 'deflate-raw');
  const letters = [];
  for (const byte of bytes) letters.push(String.fromCharCode(byte));
  return `#try=${btoa(letters.join('')).replaceAll('+', '-').replaceAll('/', '_').replace(/=+$/, '')}`;
}

// What the part of an address from its # on has: an example's name, or a query and items; or nothing, where it has neither.
async function unpackedFrom(hash) {
  const [, kind, rest] = /^#(try|example)=(.*)$/.exec(hash) ?? [];
  if (kind === 'example') return { example: decodeURIComponent(rest) };
  if (kind !== 'try') return {};
  const bytes = await inflated(bytesOfBase64(rest.replaceAll('-', '+').replaceAll('_', '/')), 'deflate-raw');
  const [query, items] = JSON.parse(new TextDecoder().decode(bytes));
  return { query: String(query), items: String(items) };
}
