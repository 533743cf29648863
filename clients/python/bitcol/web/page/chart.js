// Charts on a canvas: scales, axes, and bars, lines and points.

/** About this many round numbers from the least to the greatest. */
export function ticks(least, greatest, count) {
  const rough = (greatest - least || 1) / Math.max(count, 1);
  const power = 10 ** Math.floor(Math.log10(rough));
  const step = [1, 2, 5, 10].map((factor) => factor * power).find((candidate) => candidate >= rough);
  // Values are integers, so there is no line between two of them.
  const whole = Math.max(step, 1);
  const found = [];
  // The addition turns -0 into 0.
  for (let tick = Math.ceil(least / whole) * whole + 0; tick <= greatest; tick += whole) found.push(tick);
  return found;
}

/** The least and the greatest of all numbers in arrays, or null if there is none. NaN doesn't count. */
export function range(arrays) {
  let least = Infinity;
  let greatest = -Infinity;
  for (const array of arrays) {
    for (const number of array) {
      if (number < least) least = number;
      if (number > greatest) greatest = number;
    }
  }
  return least <= greatest ? { least, greatest } : null;
}

/** Maps a number of the range to a position between two others, or to their middle if the range is one number. */
export function scale({ least, greatest }, from, to) {
  if (least === greatest) return () => (from + to) / 2;
  return (number) => from + ((number - least) / (greatest - least)) * (to - from);
}

/** The order of rows by their number in a column. Of equal ones the earlier row is first, and NaN is left out. */
export function orderBy(column) {
  const order = [];
  column.forEach((number, row) => { if (!Number.isNaN(number)) order.push(row); });
  return order.sort((one, other) => column[one] - column[other] || one - other);
}

const MARGIN = { left: 76, right: 14, top: 12, bottom: 40 };
const POINT = 3;

/** Draws a chart: `form` is bars, lines or points, `across` an array of numbers, or null for the numbers of the rows,
 * `series` a list of a name and an array of numbers each, and `colours` those of the series, the text and the lines. */
export function draw(canvas, { form, across, acrossName, series, colours }) {
  const ratio = devicePixelRatio || 1;
  const width = canvas.clientWidth;
  const height = canvas.clientHeight;
  canvas.width = Math.round(width * ratio);
  canvas.height = Math.round(height * ratio);
  const pen = canvas.getContext("2d");
  pen.scale(ratio, ratio);
  pen.font = "12px system-ui, sans-serif";
  const found = range(series.map(({ numbers }) => numbers));
  if (!found) return false;
  // Bars start at 0.
  const heights = form === "bars" ? { least: Math.min(found.least, 0), greatest: Math.max(found.greatest, 0) } : found;
  const area = { left: MARGIN.left, right: width - MARGIN.right, top: MARGIN.top, bottom: height - MARGIN.bottom };
  const up = scale(heights, area.bottom, area.top);
  drawHeights(pen, area, heights, up, colours);
  drawTitle(pen, area, acrossName, colours);
  if (form === "bars") {
    drawBars(pen, area, across, series, up, colours);
    return true;
  }
  const rows = series[0].numbers.length;
  const widths = across ? range([across]) : { least: 1, greatest: rows };
  if (!widths) return false;
  const along = scale(widths, area.left, area.right);
  drawWidths(pen, area, widths, along, colours);
  const placeOf = across ? (row) => along(across[row]) : (row) => along(row + 1);
  const drawOne = form === "lines" ? drawLine : drawPoints;
  const order = across && form === "lines" ? orderBy(across) : null;
  series.forEach(({ numbers }, place) => {
    pen.strokeStyle = pen.fillStyle = colours.series[place % colours.series.length];
    drawOne(pen, numbers, placeOf, up, order);
  });
  return true;
}

function drawHeights(pen, area, heights, up, colours) {
  pen.textAlign = "right";
  pen.textBaseline = "middle";
  for (const tick of ticks(heights.least, heights.greatest, (area.bottom - area.top) / 40)) {
    const y = Math.round(up(tick)) + 0.5;
    line(pen, area.left, y, area.right, y, tick === 0 ? colours.text : colours.line);
    pen.fillStyle = colours.text;
    pen.fillText(short(tick), area.left - 6, y);
  }
}

function drawWidths(pen, area, widths, along, colours) {
  pen.textAlign = "center";
  pen.textBaseline = "top";
  for (const tick of ticks(widths.least, widths.greatest, (area.right - area.left) / 90)) {
    const x = Math.round(along(tick)) + 0.5;
    line(pen, x, area.bottom, x, area.bottom + 4, colours.text);
    pen.fillStyle = colours.text;
    pen.fillText(short(tick), x, area.bottom + 6);
  }
}

function drawTitle(pen, area, title, colours) {
  pen.textAlign = "center";
  pen.textBaseline = "bottom";
  pen.fillStyle = colours.text;
  pen.fillText(title, (area.left + area.right) / 2, area.bottom + MARGIN.bottom - 2);
}

function drawBars(pen, area, across, series, up, colours) {
  const rows = series[0].numbers.length;
  const room = (area.right - area.left) / rows;
  const wide = Math.max((room * 0.8) / series.length, 1);
  series.forEach(({ numbers }, place) => {
    pen.fillStyle = colours.series[place % colours.series.length];
    numbers.forEach((number, row) => {
      if (Number.isNaN(number)) return;
      const top = Math.min(up(number), up(0));
      // A bar that isn't 0 is always visible.
      const tall = number === 0 ? 0 : Math.max(Math.abs(up(number) - up(0)), 1);
      pen.fillRect(area.left + row * room + room * 0.1 + place * wide, top, wide, tall);
    });
  });
  pen.fillStyle = colours.text;
  pen.textAlign = "center";
  pen.textBaseline = "top";
  const step = Math.max(Math.ceil(60 / room), 1);
  for (let row = 0; row < rows; row += step) {
    const label = across ? (Number.isNaN(across[row]) ? "NULL" : short(across[row])) : String(row + 1);
    pen.fillText(label, area.left + (row + 0.5) * room, area.bottom + 6);
  }
}

/** A line from value to value, which a NULL interrupts. Of the values in one pixel column the least and the greatest
 * are enough: the line looks the same. */
function drawLine(pen, numbers, placeOf, up, order) {
  const rows = order ? order.length : numbers.length;
  pen.lineWidth = 1.5;
  pen.beginPath();
  let isBroken = true;
  let pixel = null;
  const flush = () => {
    if (!pixel) return;
    for (const y of [pixel.first, pixel.least, pixel.greatest, pixel.last]) pen.lineTo(pixel.x, y);
    pixel = null;
  };
  for (let place = 0; place < rows; place++) {
    const row = order ? order[place] : place;
    if (Number.isNaN(numbers[row])) {
      flush();
      isBroken = true;
      continue;
    }
    const x = placeOf(row);
    const y = up(numbers[row]);
    if (pixel && !isBroken && Math.abs(pixel.x - x) < 0.5) {
      pixel.least = Math.min(pixel.least, y);
      pixel.greatest = Math.max(pixel.greatest, y);
      pixel.last = y;
      continue;
    }
    flush();
    if (isBroken) {
      pen.moveTo(x, y);
      // A value between two NULLs is visible too.
      pen.rect(x - 0.5, y - 0.5, 1, 1);
      pen.moveTo(x, y);
    }
    pixel = { x, first: y, least: y, greatest: y, last: y };
    isBroken = false;
  }
  flush();
  pen.stroke();
}

function drawPoints(pen, numbers, placeOf, up) {
  const size = numbers.length > 20_000 ? 1 : POINT;
  numbers.forEach((number, row) => {
    const x = placeOf(row);
    if (!Number.isNaN(number) && !Number.isNaN(x)) pen.fillRect(x - size / 2, up(number) - size / 2, size, size);
  });
}

function line(pen, fromX, fromY, toX, toY, colour) {
  pen.strokeStyle = colour;
  pen.lineWidth = 1;
  pen.beginPath();
  pen.moveTo(fromX, fromY);
  pen.lineTo(toX, toY);
  pen.stroke();
}

function short(number) {
  return number.toLocaleString("en");
}
