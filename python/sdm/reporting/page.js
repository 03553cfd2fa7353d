// What a page of a report shows of its journey: unpacked values, the row at the cursor, what the strips are made of.
"use strict";

const BESIDE = 0.04; // of the places, left free beside the journey
const UNITS = {time: "ds", ceiling: "km/h", ebi: "mm", sbi: "mm", warning: "mm", permitted: "mm", indication: "mm"};
const by = id => document.getElementById(id);

// The object of a text that Python packed by zlib and base64.
async function unpacked(text) {
    const bytes = Uint8Array.from(atob(text), letter => letter.charCodeAt(0));
    const plain = new Blob([bytes]).stream().pipeThrough(new DecompressionStream("deflate"));
    return JSON.parse(await new Response(plain).text());
}

// The values of a list of steps; null stays null.
function summed(steps) {
    let last = 0;
    return steps.map(step => step === null ? null : (last += step));
}

// Columns as values: of letters a text, of numbers the sums of their steps, some of them more than another column.
function columnsOf(packed, bases) {
    const columns = {};
    for (const name of Object.keys(packed)) {
        if (typeof packed[name] === "string") columns[name] = packed[name];
        else columns[name] = summed(packed[name]);
        const base = columns[bases[name]];
        if (base) columns[name] = columns[name].map((more, n) => more === null ? null : more + (base[n] || 0));
    }
    return columns;
}

// The journey with its columns as values: places of readings in m, speeds in km/h, curves in m and km/h.
function journeyOf(packed) {
    const reading = columnsOf(packed.reading, packed.bases);
    const row = columnsOf(packed.row, packed.bases);
    const metres = name => reading[name].map(mm => mm / 1000);
    for (const each of [packed.force, packed.causes, packed.counting, packed.curves]) each.at = summed(each.at);
    packed.curves.sets.forEach(set => {
        set.lines = set.lines.map(([name, places, speeds]) => {
            const kmh = summed(speeds);
            return [name, summed(places).map((cm, i) => [cm / 100, kmh[i] / 1000])];
        });
    });
    row.time = reading.time;
    return {
        ...packed, reading, row, time: reading.time, est: metres("est"), min: metres("min"), max: metres("max"),
        kmh: reading.speed.map(speed => speed * 0.0036), release: summed(packed.release),
        isOther: new Set(packed.differs), limits: ["ebi", "sbi", "warning", "permitted", "indication"],
    };
}

// The line of a row, as the program writes it.
function rowText(journey, n) {
    return journey.names.map(name => {
        const value = journey.row[name][n];
        return value === null ? "-" : value;
    }).join(",");
}

// The recording beside the rows: of each column which rows differ, and where in its lists.
function comparisonOf(packed) {
    packed.line = summed(packed.line);
    packed.columns.forEach(column => {
        column.row = summed(column.row);
        column.by = column.by.map(milli => milli === null ? null : milli / 1000);
        column.places = new Map(column.row.map((n, i) => [n, i]));
    });
    packed.named = new Map(packed.columns.map(column => [column.name, column]));
    return packed;
}

// The targets that the places of a row are of, a text for each limit.
function countingOf(journey, n) {
    return journey.counting.texts[journey.counting.at[n]].split("\n");
}

function number(value, digits) {
    return value.toLocaleString("en", {minimumFractionDigits: digits, maximumFractionDigits: digits});
}

// The cells of the table for a column of a row: its name, its value, the recording's, how far it is off, its target.
function rowCells(journey, comparison, name, n) {
    const [value, unit] = [journey.row[name][n], UNITS[name]];
    const own = value === null ? "-" : unit ? number(value, 0) : value;
    const of = journey.limits.includes(name) ? countingOf(journey, n)[journey.limits.indexOf(name)] : "";
    const head = unit ? `${name} (${unit})` : name;
    if (!comparison) return [head, own, of];
    const column = comparison.named.get(name);
    if (!column) return [head, own, "", "not compared", of];
    if (comparison.line[n] === null) return [head, own, "", "no line", of];
    if (!column.places.has(n)) return [head, own, own, "", of];
    const i = column.places.get(n);
    const off = column.by[i];
    const got = off === null ? column.got[i] : number(value + off, off % 1 ? 3 : 0);
    const apart = off === null ? "differs" : (off > 0 ? "+" : "") + number(off, off % 1 ? 3 : 0);
    return [head, own, got, apart, of, column.beyond[i] === "1"];
}

// Shows the reading at the cursor: its row, the reading itself, and why the row is as it is.
function showReading(journey, comparison, n) {
    const {reading} = journey;
    by("number").value = n + 1;
    by("row").textContent = rowText(journey, n);
    const cells = journey.names.map(name => rowCells(journey, comparison, name, n));
    const lines = d3.select("#columns tbody").html("").selectAll("tr").data(cells).enter().append("tr")
        .classed("beyond", each => each[5] === true);
    lines.selectAll("td").data(each => each.slice(0, comparison ? 5 : 3)).enter().append("td").text(text => text);
    const ends = ["min", "est", "max"].map(name => `${number(journey[name][n], 3)} m`);
    by("reading").textContent = `${number(reading.time[n] / 10, 1)} s; front ends: min safe ${ends[0]}, ` +
        `estimated ${ends[1]}, max safe ${ends[2]}; ` +
        `${number(journey.kmh[n], 3)} km/h (${number(reading.speed[n] / 1000, 3)} m/s), ` +
        `${number(reading.accel[n] / 100, 2)} m/s², under-reading ${number(reading.under[n], 0)} mm/s` +
        (comparison && comparison.line[n] !== null ? `; line ${comparison.line[n]} of the recording` : "");
    by("force").textContent = journey.force.texts[journey.force.at[n]];
    by("causes").textContent = journey.causes.texts[journey.causes.at[n]];
    by("other").hidden = !journey.isOther.has(n);
}

// The places that the whole plot has: those of the train, and ends not far behind it.
function wholeReach(journey) {
    const [low, high] = [d3.min(journey.min), d3.max(journey.max)];
    const reach = Math.max(1000, 0.3 * (high - low));
    const ends = journey.ends.map(end => end[1] / 1000).filter(place => place > low && place < high + reach);
    const most = Math.max(high, ...ends);
    const beside = Math.max(BESIDE * (most - low), 1);
    return [low - beside, most + beside];
}

// The strips below the plot: the words of the rows, and where rows aren't the model's or the recording's.
function stripRows(journey, comparison) {
    const plain = {"1": ["#444444", "#FFFFFF"]};
    const marked = (name, numbers, colour) => {
        const values = new Uint8Array(journey.count);
        numbers.forEach(n => { values[n] = 1; });
        return {name, runs: runsOf(values), shades: {1: [colour, "#FFFFFF"]}, isLettered: false};
    };
    const rows = ["state", "status", "tco", "sb", "eb", "covered"].map(name => ({
        name, runs: runsOf(journey.row[name]), isLettered: name === "state" || name === "status",
        shades: journey.shades[name] || (name === "covered" ? {"1": ["#009E73", "#FFFFFF"]} : plain),
    }));
    if (journey.differs.length) rows.push(marked("not model's", journey.differs, "#CC0000"));
    if (comparison) rows.push(marked("recording", beyondOf(comparison), "#CC0000"));
    return rows;
}

// The numbers of the rows with a difference beyond tolerance, in order.
function beyondOf(comparison) {
    const found = comparison.columns.flatMap(column => column.row.filter((_, i) => column.beyond[i] === "1"));
    return [...new Set(found)].sort((a, b) => a - b);
}
