// The view of a report: the plot of speed over place with what lies below it, the zoom, and the cursor over readings.
"use strict";

const IS_NARROW = innerWidth < 700; // a drawing has fewer pixels there, so that its texts can be read
const WIDTH = IS_NARROW ? 460 : 980, HEIGHT = 430, WIDTH_OF_RUN = IS_NARROW ? 400 : 560;
const BESIDE_RUN = 6; // readings on each side, in the picture of a run
const STEP = 1.6; // of a button's zoom
const NEAR = 0.02; // how much a distance in speed counts beside one in place, for the reading nearest to the mouse

// The view of a journey, with nothing drawn yet.
function viewOf(journey, comparison) {
    const plot = speedPlot(by("plot"), WIDTH, HEIGHT, journey);
    const whole = d3.scaleLinear().domain(wholeReach(journey)).range(plot.x.range());
    const differing = comparison ? comparison.columns.filter(column => column.row.length) : [];
    return {
        journey, comparison, plot, whole, n: 0, isHeld: false, track: trackPlot(by("track"), WIDTH, journey),
        strips: stripPlot(by("strips"), WIDTH, stripRows(journey, comparison), journey),
        panels: differing.map(column => differencePlot(by("differences"), WIDTH, column, journey)),
    };
}

// Draws all for the places that the plot's scale has.
function draw(view) {
    const {journey, plot, strips} = view;
    if (by("fit").checked) fitSpeeds(plot);
    else plot.y.domain([0, journey.top]);
    drawJourney(plot);
    strips.x.domain(timesIn(journey, plot.x.domain()));
    drawStrips(strips);
    view.track.x.domain(plot.x.domain());
    drawTrack(view.track);
    view.panels.forEach(panel => {
        panel.x.domain(plot.x.domain());
        drawDifferences(panel);
    });
    drawAtCursor(view);
}

// Draws what depends on the reading at the cursor.
function drawAtCursor(view) {
    const {journey, plot, strips, n} = view;
    drawForce(plot, n);
    drawCurves(plot, n);
    drawCursor(plot, n);
    const time = strips.x(journey.time[n] / 10);
    strips.cursor.attr("x1", time).attr("x2", time);
    const at = plot.x(journey.est[n]);
    view.panels.forEach(panel => panel.cursor.attr("x1", at).attr("x2", at));
    showReading(journey, view.comparison, n);
}

// Lets the scale of the speeds have those of the readings in view.
function fitSpeeds(plot) {
    const [low, high] = plot.x.domain();
    const speeds = plot.journey.kmh.filter((_, n) => plot.journey.est[n] >= low && plot.journey.est[n] <= high);
    if (!speeds.length) return;
    const [least, most] = d3.extent(speeds);
    const beside = Math.max(0.2 * (most - least), 2);
    plot.y.domain([Math.max(least - beside, 0), most + beside]);
}

// From the first to the last time of the readings between two places, in s; all times where there is none.
function timesIn(journey, [low, high]) {
    const times = journey.time.filter((_, n) => journey.est[n] >= low && journey.est[n] <= high);
    const [first, last] = times.length ? d3.extent(times) : d3.extent(journey.time);
    return [first / 10, Math.max(last, first + 1) / 10];
}

// The number of the reading that is nearest to a point of the plot.
function nearest(plot, [across, up]) {
    const {journey, x, y} = plot;
    const [place, kmh, scale, rise] = [x.invert(across), y.invert(up), x(1) - x(0), y(1) - y(0)];
    let [found, least] = [0, Infinity];
    for (let n = 0; n < journey.count; n++) {
        const far = (scale * (journey.est[n] - place)) ** 2 + NEAR * (rise * (journey.kmh[n] - kmh)) ** 2;
        if (far < least) [found, least] = [n, far];
    }
    return found;
}

// Puts the cursor to a reading; numbers beyond the ends go to the ends.
function moveTo(view, n) {
    const to = Math.min(Math.max(n, 0), view.journey.count - 1);
    if (to === view.n && view.isShown) return;
    [view.n, view.isShown] = [to, true];
    drawAtCursor(view);
}

// Puts the cursor to a reading and holds it there; brings it into view.
function holdAt(view, n) {
    view.isHeld = true;
    moveTo(view, n);
    const [low, high] = view.plot.x.domain();
    const place = view.journey.est[view.n];
    if (place < low || place > high) showPlaces(view, place - (high - low) / 2, place + (high - low) / 2);
    by("held").hidden = false;
}

// Zooms to the places between two.
function showPlaces(view, low, high) {
    const {whole, plot} = view;
    const [left, right] = whole.range();
    const scale = (right - left) / (whole(high) - whole(low));
    plot.svg.call(view.zoom.transform, d3.zoomIdentity.translate(left - scale * whole(low), 0).scale(scale));
}

// Lets wheel and mouse zoom and shift the plot, and the mouse move the cursor; a click holds it and lets it go.
function followMouse(view) {
    const {plot, whole, strips} = view;
    const area = [[plot.x.range()[0], MARGIN.top], [plot.x.range()[1], HEIGHT - MARGIN.bottom]];
    let waiting = false;
    view.zoom = d3.zoom().scaleExtent([0.5, 1e6]).extent(area).on("zoom", () => {
        plot.x.domain(d3.event.transform.rescaleX(whole).domain());
        if (waiting) return;
        waiting = true;
        requestAnimationFrame(() => {
            waiting = false;
            draw(view);
        });
    });
    plot.svg.call(view.zoom).on("dblclick.zoom", null).on("dblclick", () => showPlaces(view, ...whole.domain()))
        .on("mousemove", () => view.isHeld || moveTo(view, nearest(plot, d3.mouse(plot.svg.node()))))
        .on("click", () => hold(view, nearest(plot, d3.mouse(plot.svg.node()))));
    const atTime = () => {
        const ds = 10 * strips.x.invert(d3.mouse(strips.svg.node())[0]);
        return Math.max(d3.bisectRight(view.journey.time, ds) - 1, 0);
    };
    strips.svg.on("mousemove", () => view.isHeld || moveTo(view, atTime())).on("click", () => hold(view, atTime()));
}

// Holds the cursor at a reading, or lets it go.
function hold(view, n) {
    view.isHeld = !view.isHeld;
    by("held").hidden = !view.isHeld;
    moveTo(view, n);
}

// The numbers of the readings at which the words of a row change.
function changesOf(journey) {
    const words = n => ["state", "status", "tco", "sb", "eb", "covered"].map(name => journey.row[name][n]).join();
    return d3.range(1, journey.count).filter(n => words(n) !== words(n - 1));
}

// Lets buttons, keys and the field move the cursor and zoom.
function followButtons(view) {
    const {journey, comparison, plot} = view;
    const next = (numbers, way) => {
        const found = way > 0 ? numbers.find(n => n > view.n) : numbers.slice().reverse().find(n => n < view.n);
        if (found !== undefined) holdAt(view, found);
    };
    const changes = changesOf(journey);
    const beyond = comparison ? beyondOf(comparison) : [];
    const zoomBy = scale => plot.svg.call(view.zoom.scaleBy, scale, [plot.x(journey.est[view.n]), HEIGHT / 2]);
    const does = {
        before: () => holdAt(view, view.n - 1), after: () => holdAt(view, view.n + 1),
        "change-before": () => next(changes, -1), "change-after": () => next(changes, 1),
        "difference-before": () => next(beyond, -1), "difference-after": () => next(beyond, 1),
        nearer: () => zoomBy(STEP), farther: () => zoomBy(1 / STEP),
        all: () => showPlaces(view, ...view.whole.domain()),
    };
    Object.keys(does).filter(by).forEach(name => by(name).addEventListener("click", does[name]));
    by("fit").addEventListener("change", () => draw(view));
    by("number").addEventListener("change", () => holdAt(view, by("number").valueAsNumber - 1 || 0));
    document.addEventListener("keydown", event => {
        const name = {ArrowLeft: "before", ArrowRight: "after"}[event.key];
        if (!name || event.target.tagName === "INPUT") return;
        event.preventDefault();
        does[name]();
    });
    const named = () => /^#row-(\d+)$/.exec(location.hash);
    addEventListener("hashchange", () => named() && holdAt(view, Number(named()[1]) - 1));
    if (named()) holdAt(view, Number(named()[1]) - 1);
}

// The places that the picture of a run has: its readings with some beside them, and a limit on both sides.
function runReach(journey, run, recorded) {
    const rows = [run.first - BESIDE_RUN, run.first, run.row, run.last, run.last + BESIDE_RUN];
    const places = rows.filter(at => at in journey.est).map(at => journey.est[at]);
    if (recorded !== null) places.push(journey.row[run.column][run.row] / 1000, recorded);
    const [low, high] = d3.extent(places);
    const beside = Math.max(0.1 * (high - low), 20);
    return [low - beside, high + beside];
}

// The recording's place of the limit that a run is named by, in m, at the row that is farthest off; null for none.
function recordedPlace(view, run) {
    const {journey, comparison} = view;
    const column = comparison.named.get(run.column);
    const off = column.by[column.places.get(run.row)];
    return journey.limits.includes(run.column) && off !== null ? (journey.row[run.column][run.row] + off) / 1000 : null;
}

// A picture of a run: its readings with the curves of the row that is farthest off, and the recording's limit there.
function drawRun(view, run, i) {
    const {journey} = view;
    const n = run.row;
    const recorded = recordedPlace(view, run);
    const figure = d3.select("#runs").append("figure");
    const plot = speedPlot(figure.append("div").attr("id", `run-${i}`).node(), WIDTH_OF_RUN, 300, journey);
    const speeds = d3.extent(journey.kmh.slice(run.first, run.last + 1));
    plot.x.domain(runReach(journey, run, recorded));
    plot.y.domain([0.5 * speeds[0], 1.3 * speeds[1] + 5]);
    drawJourney(plot);
    for (const part of [drawForce, drawCurves, drawCursor]) part(plot, n);
    drawExtent(plot, run);
    if (recorded !== null) drawRecorded(plot, journey.row[run.column][n] / 1000, recorded, journey.kmh[n], run.column);
    const show = () => {
        holdAt(view, n);
        showPlaces(view, ...plot.x.domain());
        by("plot").scrollIntoView();
    };
    const caption = figure.append("figcaption");
    caption.append("strong").text(run.text);
    caption.append("button").attr("type", "button").text("show in the plot").on("click", show);
    caption.append("div").text(run.facts);
    if (run.explained) caption.append("div").classed("explained", true).text(run.explained);
}

async function main() {
    const packed = await unpacked(by("data").textContent);
    const journey = journeyOf(packed.journey);
    const comparison = packed.comparison ? comparisonOf(packed.comparison) : null;
    const view = viewOf(journey, comparison);
    const first = comparison && comparison.runs.length ? comparison.runs[0].first : journey.row.status.search(/[WX]/);
    view.n = Math.max(first, 0);
    view.isShown = true;
    followMouse(view);
    showPlaces(view, ...view.whole.domain());
    draw(view);
    followButtons(view);
    if (comparison) comparison.runs.forEach((run, i) => drawRun(view, run, i));
    document.body.dataset.drawn = "1";
}

main().catch(fault => {
    by("fault").hidden = false;
    by("fault").textContent = `The plot can't be drawn: ${fault.message}. A browser of 2023 or later draws it.`;
    console.error(fault);
});
