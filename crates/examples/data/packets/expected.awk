# What the query answers: awk -F, -f expected.awk readings.csv
{ sum += $2; print sum }
