// Plots of a journey: speed over place, the rows' words over time, and differences over place. It draws what it is
// given and keeps no cursor, which page.js does. Of many readings as many are drawn as a screen can show.
"use strict";

const MARGIN = {left: 78, right: 14, top: 40, bottom: 34};
const LEVELS = [3, 14, 25]; // how far above the plot names stand
const SPOT = 3; // half the height of a difference that is a number alone
const MOST_MARKS = 500; // readings in view, above which no reading has a mark of its own
const INSET_BELOW = 14; // pixels between two marks, below which an inset shows them apart
const GRADES = {"-1": "#F3C9B1", 0: "#EEEEEE", 1: "#CFE6D2"}; // downhill, level, uphill
const LINES = { // how a curve or a limit is drawn: its name, colour and dash
    ebi: ["EBI", "#D55E00", ""],
    sbi: ["SBI", "#000000", "7 4"],
    warning: ["W", "#E69F00", "10 4 2 4"],
    permitted: ["P", "#0072B2", "2 3"],
    indication: ["I", "#009E73", "10 4 2 4 2 4"],
    EBD: ["EBD", "#D55E00", "1 4"],
    SBD: ["SBD", "#777777", "1 4"],
};

function element(parent, name, classes) {
    return parent.append(name).attr("class", classes);
}

// A line from a point to another one; where that has no y, a level one.
function straight(parent, classes, x1, y1, x2, y2 = y1) {
    return element(parent, "line", classes).attr("x1", x1).attr("y1", y1).attr("x2", x2).attr("y2", y2);
}

// A drawing with axes of place and speed, some pixels wide and high, in a holder.
function speedPlot(holder, width, height, journey) {
    const svg = element(d3.select(holder), "svg", "plot").attr("viewBox", `0 0 ${width} ${height}`)
        .attr("role", "img").attr("aria-label", "speed over place");
    const [right, low] = [width - MARGIN.right, height - MARGIN.bottom];
    const clip = `clip-${holder.id}`;
    svg.append("clipPath").attr("id", clip).append("rect").attr("x", MARGIN.left).attr("y", MARGIN.top)
        .attr("width", right - MARGIN.left).attr("height", low - MARGIN.top);
    const plot = {
        svg, width, height, journey, clip,
        x: d3.scaleLinear().range([MARGIN.left, right]),
        y: d3.scaleLinear().domain([0, journey.top]).range([low, MARGIN.top]),
        grid: element(svg, "g", "grid"),
        across: element(svg, "g", "axis").attr("transform", `translate(0 ${low})`),
        up: element(svg, "g", "axis").attr("transform", `translate(${MARGIN.left} 0)`),
        names: element(svg, "g", "names"),
    };
    const inside = element(svg, "g", "inside").attr("clip-path", `url(#${clip})`);
    for (const layer of ["force", "ceiling", "curves", "train", "marks", "cursor"]) {
        plot[layer] = element(inside, "g", layer);
    }
    element(svg, "text", "title").attr("x", right).attr("y", height - 3).attr("text-anchor", "end").text("place (m)");
    element(svg, "text", "title").attr("transform", `translate(14 ${low}) rotate(-90)`).text("speed (km/h)");
    return plot;
}

// Draws the axes, the ceiling and the train for the places that the scale has; the speeds of the scale are kept.
function drawJourney(plot) {
    const {journey, x, y} = plot;
    plot.across.call(d3.axisBottom(x).ticks(Math.max(3, Math.floor(plot.width / 110))));
    plot.up.call(d3.axisLeft(y).ticks(8));
    plot.grid.html("");
    y.ticks(8).forEach(kmh => straight(plot.grid, "", x.range()[0], y(kmh), x.range()[1]));
    drawCeiling(plot);
    const kept = thinned(journey.est, journey.kmh, x);
    drawTrain(plot, kept);
    drawMarks(plot, kept.inView <= MOST_MARKS ? kept.filter(n => n !== null) : []);
}

// The numbers of the readings to draw: of each column of pixels the first, the slowest, the fastest and the last one.
// null stands where readings out of view are left out. `inView` counts those in view.
function thinned(places, speeds, scale) {
    const [low, high] = scale.domain();
    const kept = [];
    let column = null, chosen = null, inView = 0;
    const isIn = n => n >= 0 && n < places.length && places[n] >= low && places[n] <= high;
    const flush = () => {
        if (chosen) kept.push(...[...new Set(chosen)].sort((a, b) => a - b));
        chosen = column = null;
    };
    for (let n = 0; n < places.length; n++) {
        inView += isIn(n);
        if (!isIn(n) && !isIn(n - 1) && !isIn(n + 1)) {
            flush();
            if (kept.length && kept[kept.length - 1] !== null) kept.push(null);
            continue;
        }
        const here = Math.floor(scale(places[n]));
        if (here !== column) {
            flush();
            [column, chosen] = [here, [n, n, n, n]];
        }
        if (speeds[n] < speeds[chosen[1]]) chosen[1] = n;
        if (speeds[n] > speeds[chosen[2]]) chosen[2] = n;
        chosen[3] = n;
    }
    flush();
    kept.inView = inView;
    return kept;
}

// The train as a line that has the colour of the status of the reading that it goes to.
function drawTrain(plot, kept) {
    const {journey, x, y} = plot;
    const spot = n => `${x(journey.est[n]).toFixed(1)} ${y(journey.kmh[n]).toFixed(1)}`;
    const paths = {};
    for (let i = 1; i < kept.length; i++) {
        const [from, to] = [kept[i - 1], kept[i]];
        if (from === null || to === null) continue;
        const status = journey.row.status[to];
        paths[status] = (paths[status] || "") + `M${spot(from)}L${spot(to)}`;
    }
    const whole = Object.values(paths).join("");
    plot.train.html("");
    element(plot.train, "path", "under").attr("d", whole);
    Object.keys(paths).forEach(status => element(plot.train, "path", "over").attr("d", paths[status])
        .attr("stroke", journey.shades.status[status][0]));
}

// A mark for each of these readings in the colour of its status, and a bar from the min to the max safe front end.
function drawMarks(plot, numbers) {
    const {journey, x, y} = plot;
    plot.marks.html("");
    numbers.forEach(n => straight(plot.marks, "doubt", x(journey.min[n]), y(journey.kmh[n]), x(journey.max[n])));
    numbers.forEach(n => element(plot.marks, "circle", "reading").attr("r", 3.2).attr("cx", x(journey.est[n]))
        .attr("cy", y(journey.kmh[n])).attr("fill", journey.shades.status[journey.row.status[n]][0]));
}

// The ceiling of the rows at the estimated front end, and the static speed profile.
function drawCeiling(plot) {
    const {journey, x, y} = plot;
    const [low, high] = x.domain();
    const kept = thinned(journey.est, journey.row.ceiling, x);
    const line = d3.line().defined(n => n !== null).x(n => x(journey.est[n])).y(n => y(journey.row.ceiling[n]))
        .curve(d3.curveStepAfter);
    plot.ceiling.html("");
    element(plot.ceiling, "path", "of-rows").attr("d", line(kept));
    const steps = journey.track.profile.map(([mm, kmh]) => [mm === null ? low : mm / 1000, kmh]);
    steps.push([Math.max(high, steps[steps.length - 1][0]), steps[steps.length - 1][1]]);
    const profile = d3.line().x(step => x(step[0])).y(step => y(step[1])).curve(d3.curveStepAfter);
    element(plot.ceiling, "path", "profile").attr("d", profile(steps));
}

// What is in force at a reading: restrictions as fields, ends of the authority as upright lines with their names.
function drawForce(plot, n) {
    const {journey, x, y} = plot;
    const holds = held => held[held.length - 2] <= n && n < held[held.length - 1];
    plot.force.html("");
    plot.names.html("");
    journey.restrictions.filter(holds).forEach(([kmh, from, to]) => {
        const end = to === null ? x.domain()[1] : to / 1000;
        element(plot.force, "rect", "restriction").attr("x", x(from / 1000)).attr("y", y(kmh))
            .attr("width", Math.max(x(end) - x(from / 1000), 1)).attr("height", Math.max(y(0) - y(kmh), 0));
    });
    const named = new Map();
    journey.ends.filter(holds).sort((a, b) => a[1] - b[1]).forEach(([name, mm]) => {
        const at = x(mm / 1000);
        if (at < x.range()[0] || at > x.range()[1]) return;
        straight(plot.force, name === "start of R" ? "end release" : "end", at, MARGIN.top, at, y.range()[0]);
        named.set(at, named.has(at) ? `${named.get(at)}, ${name}` : name);
    });
    const free = LEVELS.map(() => -Infinity); // where each level of names is free from
    named.forEach((names, at) => {
        const half = 3.2 * names.length;
        const middle = Math.min(at, x.range()[1] - half);
        const level = Math.max(free.findIndex(from => middle - half > from), 0);
        free[level] = middle + half;
        element(plot.names, "text", "end").attr("x", middle).attr("y", MARGIN.top - LEVELS[level])
            .attr("text-anchor", "middle").text(names);
    });
}

// The curves of the targets that counted at a reading.
function drawCurves(plot, n) {
    const {journey, x, y} = plot;
    const line = d3.line().x(point => x(point[0])).y(point => y(point[1]));
    plot.curves.html("");
    journey.curves.sets[journey.curves.at[n]].lines.forEach(([name, points]) => {
        const [, colour, dash] = LINES[name];
        element(plot.curves, "path", `curve ${name}`).attr("d", line(points)).attr("stroke", colour)
            .attr("stroke-dasharray", dash);
    });
}

// A reading at the cursor: its place and speed, its limits at its speed, and the release speed that it counts with.
function drawCursor(plot, n) {
    const {journey, x, y} = plot;
    const [at, high] = [x(journey.est[n]), y(journey.kmh[n])];
    plot.cursor.html("");
    straight(plot.cursor, "hair", at, MARGIN.top, at, y.range()[0]);
    straight(plot.cursor, "hair", x.range()[0], high, x.range()[1]);
    if (journey.release[n] !== null) {
        straight(plot.cursor, "release", x.range()[0], y(journey.release[n]), x.range()[1]);
    }
    journey.limits.filter(name => journey.row[name][n] !== null).forEach(name => {
        const place = x(journey.row[name][n] / 1000);
        straight(plot.cursor, "limit", place, high - 6, place, high + 6).attr("stroke", LINES[name][1]);
    });
    element(plot.cursor, "circle", "ring").attr("r", 5.5).attr("cx", at).attr("cy", high);
}

// Runs of equal values in a column, as [value, first reading, the one behind the last].
function runsOf(values) {
    const runs = [];
    for (let n = 0, from = 0; n < values.length; n++) {
        if (n + 1 === values.length || values[n + 1] !== values[n]) {
            runs.push([values[n], from, n + 1]);
            from = n + 1;
        }
    }
    return runs;
}

// Strips of some columns over time, each value up to the next reading, in a holder.
function stripPlot(holder, width, rows, journey) {
    const height = 16 * rows.length + 38;
    const svg = element(d3.select(holder), "svg", "strips").attr("viewBox", `0 0 ${width} ${height}`)
        .attr("role", "img").attr("aria-label", "words of the rows over time");
    rows.forEach((row, i) => element(svg, "text", "name").attr("x", MARGIN.left - 6).attr("y", 16 * i + 12)
        .attr("text-anchor", "end").text(row.name));
    element(svg, "text", "title").attr("x", width - MARGIN.right).attr("y", height - 2).attr("text-anchor", "end")
        .text("time (s)");
    return {
        svg, rows, journey, height,
        x: d3.scaleLinear().range([MARGIN.left, width - MARGIN.right]),
        fields: element(svg, "g", "fields"),
        cursor: element(svg, "line", "hair").attr("y1", 0).attr("y2", 16 * rows.length),
        axis: element(svg, "g", "axis").attr("transform", `translate(0 ${16 * rows.length + 2})`),
    };
}

// Draws the strips for the times that the scale has.
function drawStrips(strips) {
    const {journey, x} = strips;
    const [low, high] = x.domain();
    const until = n => n < journey.count ? journey.time[n] / 10 : journey.time[journey.count - 1] / 10;
    strips.axis.call(d3.axisBottom(x).ticks(8));
    strips.fields.html("");
    strips.rows.forEach((row, i) => {
        let filled = -1; // the last column of pixels that a short run has filled
        row.runs.forEach(([value, from, end]) => {
            const [begin, last] = [Math.max(until(from), low), Math.min(until(end), high)];
            const [shade, left, wide] = [row.shades[value], x(begin), Math.max(x(last) - x(begin), 1)];
            if (!shade || begin > high || last < low || (wide === 1 && Math.floor(left) === filled)) return;
            filled = wide === 1 ? Math.floor(left) : -1;
            element(strips.fields, "rect", "").attr("x", left).attr("y", 16 * i + 1).attr("width", wide)
                .attr("height", 14).attr("fill", shade[0]);
            if (wide > 12 && row.isLettered) {
                element(strips.fields, "text", "letter").attr("x", left + wide / 2).attr("y", 16 * i + 12)
                    .attr("fill", shade[1]).text(value);
            }
        });
    });
}

// The strips of the track over place, in a holder: gradients, and areas where there are any.
function trackPlot(holder, width, journey) {
    const {gradients, adhesion, no_special} = journey.track;
    const sloped = (gradients.length ? gradients : [[0, 0]]).map(([mm, grade], i) => {
        const next = gradients[i + 1];
        return [i ? mm / 1000 : -Infinity, next ? next[0] / 1000 : Infinity, `${grade}`, GRADES[Math.sign(grade)]];
    });
    const areas = (found, colour) => found.map(([from, to]) => [from / 1000, to / 1000, "", colour]);
    const rows = [["gradient (‰)", sloped], ["adhesion", areas(adhesion, "#A9D3EE")],
        ["no special", areas(no_special, "#D8C6E6")]].filter(row => row[1].length);
    const svg = element(d3.select(holder), "svg", "track").attr("viewBox", `0 0 ${width} ${16 * rows.length + 4}`)
        .attr("role", "img").attr("aria-label", "gradients and areas of the track over place");
    rows.forEach(([name], i) => element(svg, "text", "name").attr("x", MARGIN.left - 6).attr("y", 16 * i + 12)
        .attr("text-anchor", "end").text(name));
    const x = d3.scaleLinear().range([MARGIN.left, width - MARGIN.right]);
    return {svg, rows, x, fields: element(svg, "g", "fields")};
}

// Draws the strips of the track for the places that the scale has.
function drawTrack(track) {
    const {rows, x} = track;
    const [low, high] = x.domain();
    track.fields.html("");
    rows.forEach(([, fields], i) => fields.forEach(([from, to, text, colour]) => {
        const [left, right] = [x(Math.max(from, low)), x(Math.min(to, high))];
        if (right <= left) return;
        element(track.fields, "rect", "").attr("x", left).attr("y", 16 * i + 1).attr("width", right - left)
            .attr("height", 14).attr("fill", colour);
        if (right - left < 8 * text.length) return;
        element(track.fields, "text", "letter").attr("x", (left + right) / 2).attr("y", 16 * i + 12).text(text);
    }));
}

// A panel of the differences of a column over place, in a holder; by how much, or of words that they differ.
function differencePlot(holder, width, column, journey) {
    const height = column.unit ? 92 : 34;
    const svg = element(d3.select(holder), "svg", "differences").attr("viewBox", `0 0 ${width} ${height}`)
        .attr("role", "img").attr("aria-label", `differences of ${column.name} over place`);
    const numbers = column.by.filter(by => by !== null);
    const most = Math.max(column.tolerance, ...[d3.max(numbers) || 0, -(d3.min(numbers) || 0)]) * 1.1 || 1;
    const panel = {
        svg, column, journey,
        x: d3.scaleLinear().range([MARGIN.left, width - MARGIN.right]),
        y: d3.scaleLinear().domain([-most, most]).range([height - 6, 6]),
        fields: element(svg, "g", "fields"),
        cursor: element(svg, "line", "hair").attr("y1", 4).attr("y2", height - 4),
    };
    const unit = column.unit ? ` (${column.unit})` : "";
    element(svg, "text", "name").attr("x", MARGIN.left - 6).attr("y", 14).attr("text-anchor", "end").text(column.name);
    if (!unit) return panel;
    element(svg, "text", "name").attr("x", MARGIN.left - 6).attr("y", 28).attr("text-anchor", "end").text(unit);
    element(svg, "g", "axis").attr("transform", `translate(${MARGIN.left} 0)`).call(d3.axisRight(panel.y).ticks(4));
    return panel;
}

// Draws the differences in view: in each column of pixels the least and the greatest one, red where one is beyond.
function drawDifferences(panel) {
    const {column, journey, x, y} = panel;
    const spans = new Map();
    column.row.forEach((n, i) => {
        const [here, by] = [Math.floor(x(journey.est[n])), column.by[i] === null ? 0 : column.by[i]];
        if (here < x.range()[0] || here > x.range()[1]) return;
        const [least, greatest, isBeyond] = spans.get(here) || [by, by, false];
        spans.set(here, [Math.min(least, by), Math.max(greatest, by), isBeyond || column.beyond[i] === "1"]);
    });
    panel.fields.html("");
    if (column.unit) {
        element(panel.fields, "rect", "tolerance").attr("x", x.range()[0]).attr("width", x.range()[1] - x.range()[0])
            .attr("y", y(column.tolerance)).attr("height", y(-column.tolerance) - y(column.tolerance));
        straight(panel.fields, "zero", x.range()[0], y(0), x.range()[1]);
    }
    spans.forEach(([least, greatest, isBeyond], here) => {
        straight(panel.fields, isBeyond ? "beyond" : "within", here, y(greatest) - SPOT, here, y(least) + SPOT);
    });
}

// From where to where the readings of a run go, at the foot of its picture.
function drawExtent(plot, run) {
    const {journey, x, y} = plot;
    const [from, to] = [x(journey.est[run.first]), x(journey.est[run.last])];
    straight(plot.cursor, "extent", Math.min(from, to) - 2, y.range()[0] - 3, Math.max(from, to) + 2);
}

// A limit in m as the row and as the recording have it, at its speed, each named at its own place; and an inset of the
// two where they lie too near to one another to be told apart.
function drawRecorded(plot, own, recorded, kmh, name) {
    const {x, y, svg, height} = plot;
    const level = y(kmh);
    straight(plot.cursor, "recorded", x(recorded), level - 14, x(recorded), level + 14);
    const isBefore = recorded < own;
    const [low, high] = x.range();
    const named = (place, text, classes, side) => {
        const at = Math.min(Math.max(x(place), low + 60), high - 60);
        element(svg, "text", classes).attr("x", at).attr("y", level + side * 22 + 4).attr("text-anchor", "middle")
            .text(text);
    };
    named(recorded, `recorded ${number(recorded, 3)} m`, "got", isBefore ? -1 : 1);
    named(own, `sdm ${number(own, 3)} m`, "own", isBefore ? 1 : -1);
    if (Math.abs(x(recorded) - x(own)) >= INSET_BELOW) return;
    const [left, wide, top] = [low + 8, 190, height - MARGIN.bottom - 66];
    const inner = d3.scaleLinear().domain([Math.min(own, recorded), Math.max(own, recorded)])
        .range([left + 50, left + wide - 50]);
    const box = element(svg, "g", "inset");
    box.append("rect").attr("x", left).attr("y", top).attr("width", wide).attr("height", 52);
    straight(box, "zero", left + 6, top + 26, left + wide - 6);
    straight(box, "limit", inner(own), top + 18, inner(own), top + 34).attr("stroke", LINES[name][1]);
    straight(box, "recorded", inner(recorded), top + 14, inner(recorded), top + 38);
    const by = 1000 * (recorded - own);
    element(box, "text", "title").attr("x", left + wide / 2).attr("y", top + 12).attr("text-anchor", "middle")
        .text(`${LINES[name][0]}: ${by > 0 ? "+" : ""}${number(by, 0)} mm`);
    [[own, "sdm", "own"], [recorded, "recorded", "got"]].forEach(([place, text, classes]) => {
        element(box, "text", classes).attr("x", inner(place)).attr("y", top + 48).attr("text-anchor", "middle").text(text);
    });
}
