// The messages of a capture: asking for them, their table, and the picture of who sends what to whom.
"use strict";

const PAGE = 200; // messages that are in the document at once
const MOST_LANES = 10;
const SVG = "http://www.w3.org/2000/svg";

let matching = []; // the messages that the filter lets through
let firstRow = 0; // the first of them that is in the document

// Posts a capture, and takes its messages as they come.
async function readCapture(number, octets, keys, form) {
    const head = new TextEncoder().encode(JSON.stringify(keys)), size = new Uint8Array(4);
    new DataView(size.buffer).setUint32(0, head.length);
    const stopper = new AbortController();
    stopping = stopper;
    clearResult();
    list = { rows: [], notes: [], trouble: null, size: octets.length, form };
    get("progress").value = 0;
    get("progress").hidden = get("stop").hidden = false;
    say("", "Asking");
    let drawn = 0, bad = null, isWhole = false;
    const take = (line) => {
        const told = JSON.parse(line);
        if (told.bad !== undefined) {
            bad = told.bad;
            return;
        }
        for (const row of told.messages) {
            row.number = list.rows.length;
            row.answer = null;
            if (row.pair !== null) list.rows[row.pair].answer = row;
            list.rows.push(row);
        }
        get("progress").value = told.read;
        if (told.notes) [list.notes, list.trouble, isWhole] = [told.notes, told.trouble, true];
        if (performance.now() < drawn + 300 || isWhole) return;
        drawn = performance.now();
        get("status").textContent = list.rows.length + " messages so far, " + Math.round(told.read * 100) + " % of the packets";
        filterRows(firstRow + PAGE > list.rows.length - told.messages.length);
        get("capture").hidden = !list.rows.length;
    };
    try {
        const answer = await post("capture", "application/octet-stream", new Blob([size, head, octets]), stopper.signal);
        if (!answer.ok) throw new Error("The server refuses this: " + (await answer.text()).trim() + " (" + answer.status + ").");
        const reader = answer.body.getReader(), decoder = new TextDecoder();
        let left = "";
        for (;;) {
            const piece = await reader.read();
            if (number !== asked) return stopper.abort();
            left += decoder.decode(piece.value || new Uint8Array(), { stream: !piece.done });
            const lines = left.split("\n");
            left = lines.pop();
            lines.forEach(take);
            if (piece.done) break;
        }
        if (!isWhole && bad === null) list.trouble = "The server ended before all was read; " + list.rows.length + " messages up to there";
    } catch (error) {
        if (number !== asked) return;
        if (!stopper.signal.aborted) throw error;
        list.trouble = "Stopped; " + list.rows.length + " messages up to there";
    } finally {
        if (stopping === stopper) stopping = null;
    }
    get("progress").hidden = get("stop").hidden = true;
    if (bad !== null) {
        list = null;
        clearResult();
        return say(spoken(bad), "");
    }
    presentList();
}

get("stop").addEventListener("click", () => stopping && stopping.abort());

function presentList() {
    const count = list.rows.length, errors = list.rows.filter((row) => row.error && row.what !== "not read").length;
    say(list.trouble ? spoken(list.trouble) : "", (count === 1 ? "1 message" : count + " messages") + (errors ? ", " + errors + (errors === 1 ? " error" : " errors") : "")
        + " in a capture of " + list.size + " octets, given as " + list.form);
    get("notes").replaceChildren();
    note(list.notes);
    get("capture").hidden = !count;
    filterRows(true);
    foldForm(count > 0, true);
}

// The table.

function filterRows(draws) {
    const text = get("filter").value.trim().toLowerCase(), only = get("errors-only").checked;
    matching = list.rows.filter((row) => (!only || row.error) && (!text || (row.line + " " + row.error).toLowerCase().includes(text)));
    if (draws) drawRows(Math.min(firstRow, Math.max(0, Math.floor((matching.length - 1) / PAGE) * PAGE)));
    else whereRows();
}

function whereRows() {
    const last = Math.min(firstRow + PAGE, matching.length);
    get("rows-where").textContent = matching.length ? firstRow + 1 + " to " + last + " of " + matching.length : "none of " + list.rows.length;
    get("rows-earlier").disabled = firstRow === 0;
    get("rows-later").disabled = last >= matching.length;
}

// Seconds with a fraction, from microseconds.
function secondsOf(microseconds) {
    return (microseconds < 0 ? "-" : "") + Math.floor(Math.abs(microseconds) / 1e6) + "." + String(Math.abs(microseconds) % 1e6).padStart(6, "0");
}

// How long a reply took.
function tookOf(row) {
    const took = row.time - list.rows[row.pair].time;
    return took < 1000 ? took + " \u00b5s" : took < 1e6 ? (took / 1000).toFixed(1) + " ms" : (took / 1e6).toFixed(2) + " s";
}

function resultOf(row) {
    const answer = row.answer, opened = row.opened.length ? "opened: " + row.opened.join(", ") : "";
    if (row.error) return row.pair === null ? row.error : row.error + ", after " + tookOf(row);
    if (answer) return (answer.error || answer.what) + " in packet " + answer.packet + ", after " + tookOf(answer) + (opened ? "; " + opened : "");
    if (row.pair !== null) return "answers packet " + list.rows[row.pair].packet + ", after " + tookOf(row) + (opened ? "; " + opened : "");
    return row.reply ? opened : "no answer" + (opened ? "; " + opened : "");
}

const COLUMNS = ["Packet", "Time", "From", "To", "What", "Who", "For", "Result"];

function drawRows(first) {
    firstRow = first;
    const head = made("thead"), names = made("tr"), body = made("tbody");
    for (const each of COLUMNS) {
        const cell = made("th", "", each);
        cell.scope = "col";
        if (each === "Time") cell.title = "seconds since the first message";
        names.append(cell);
    }
    head.append(names);
    for (const row of matching.slice(first, first + PAGE)) {
        const line = made("tr", row.error ? "error" : ""), button = made("button", "message to-line", row.what);
        line.row = button.row = row;
        button.type = "button";
        button.tabIndex = -1;
        button.title = row.line;
        if (row.why !== null) button.setAttribute("aria-disabled", "true");
        const texts = [String(row.packet), secondsOf(row.time), row.from, row.to, null, row.who, row.whom, resultOf(row)];
        texts.forEach((text, number) => {
            const cell = made("td", number < 2 ? "number" : number < 4 ? "end" : "");
            cell.setAttribute("data-label", COLUMNS[number]);
            if (text === null) cell.append(button, made("span", "quiet", row.way === "UDP" || row.way === "TCP" ? "" : " " + row.way));
            else cell.textContent = text;
            line.append(cell);
        });
        row.shownIn = line;
        body.append(line);
    }
    get("messages").replaceChildren(head, body);
    const button = get("messages").querySelector("button");
    if (button) button.tabIndex = 0;
    whereRows();
    drawSequence();
}

function messageButtons() {
    return [...get("messages").querySelectorAll("button.message")];
}

function stepTo(button) {
    for (const each of get("messages").querySelectorAll("button[tabindex='0']")) each.tabIndex = -1;
    button.tabIndex = 0;
    for (const each of get("messages").querySelectorAll("tr.pair")) each.classList.remove("pair");
    const other = button.row.answer || (button.row.pair !== null ? list.rows[button.row.pair] : null);
    if (other && other.shownIn && other.shownIn.isConnected) other.shownIn.classList.add("pair");
}

// Shows a message in place of the list, or says why it is not shown.
function openRow(row) {
    if (row.why === null) ask(row).then(() => picked === row && get("back").focus());
    else get("status").textContent = "Packet " + row.packet + ": " + row.why;
}

get("messages").addEventListener("click", (event) => {
    const line = event.target.closest("tbody tr");
    if (!line) return;
    stepTo(line.querySelector("button"));
    openRow(line.row);
});
get("messages").addEventListener("focusin", (event) => {
    if (event.target.row) stepTo(event.target);
});
get("messages").addEventListener("keydown", (event) => {
    if (event.ctrlKey || event.metaKey || event.altKey || !event.target.row) return;
    const at = matching.indexOf(event.target.row), last = matching.length - 1;
    const steps = { ArrowDown: at + 1, ArrowUp: at - 1, PageDown: at + 10, PageUp: at - 10, Home: 0, End: last };
    if (!(event.key in steps)) return;
    event.preventDefault();
    const to = Math.max(0, Math.min(last, steps[event.key]));
    if (to < firstRow || to >= firstRow + PAGE) drawRows(Math.floor(to / PAGE) * PAGE);
    messageButtons()[to - firstRow].focus();
});
get("rows-earlier").addEventListener("click", () => drawRows(Math.max(0, firstRow - PAGE)));
get("rows-later").addEventListener("click", () => drawRows(firstRow + PAGE));
get("filter").addEventListener("input", () => list && filterRows(true));
get("filter").addEventListener("keydown", (event) => event.key === "Enter" && event.preventDefault());
get("errors-only").addEventListener("change", () => list && filterRows(true));
get("back").addEventListener("click", () => {
    const message = picked;
    asked++;
    picked = null;
    const first = firstRow;
    clearResult();
    presentList();
    if (firstRow !== first && first < matching.length) drawRows(first);
    message.shownIn.classList.add("last");
    message.shownIn.querySelector("button").focus();
});

// The picture: a lane for each address, an arrow for each message, made by calls of the DOM.

function svg(tag, attributes, text) {
    const element = document.createElementNS(SVG, tag);
    for (const [name, value] of Object.entries(attributes)) element.setAttribute(name, value);
    if (text !== undefined) element.textContent = text;
    return element;
}

// An address without its port, and the port.
function addressOf(end) {
    const at = end.lastIndexOf(":");
    return [end.slice(0, at), end.slice(at + 1)];
}

// The lanes: clients, then KDCs and servers of passwords, then services, each in the order in which they come.
function lanesOf(rows) {
    const roles = new Map();
    for (const row of rows) {
        const [client, server] = row.reply ? [row.to, row.from] : [row.from, row.to], port = addressOf(server)[1];
        const role = port === "88" ? "KDC" : port === "464" ? "password server" : "service";
        const one = addressOf(server)[0] + " " + role;
        if (!roles.has(one)) roles.set(one, { role, address: addressOf(server)[0] });
        row.lanes = [addressOf(client)[0] + " client", one];
        if (!roles.has(row.lanes[0])) roles.set(row.lanes[0], { role: "client", address: addressOf(client)[0] });
    }
    const order = ["client", "KDC", "password server", "service"];
    const lanes = [...roles].sort((one, other) => order.indexOf(one[1].role) - order.indexOf(other[1].role)).map(([name, lane]) => ({ name, ...lane }));
    return lanes.length > MOST_LANES ? [...lanes.slice(0, MOST_LANES - 1), { name: null, role: "others", address: lanes.length - MOST_LANES + 1 + " addresses" }] : lanes;
}

function drawSequence() {
    const rows = matching.slice(firstRow, firstRow + PAGE), lanes = lanesOf(rows);
    get("sequence").replaceChildren();
    if (!rows.length || !get("sequence-box").open) return;
    const gap = Math.max(150, Math.min(280, 900 / Math.max(1, lanes.length - 1))), left = 150, step = 30, top = 46;
    const wide = left + gap * (lanes.length - 1) + 90, high = top + step * rows.length + 10;
    const picture = svg("svg", { width: wide, height: high, role: "group", "aria-label": "Messages " + (firstRow + 1) + " to " + (firstRow + rows.length) + " between " + lanes.map((lane) => lane.role + " " + lane.address).join(", ") });
    const middle = (name) => left + gap * Math.max(0, lanes.findIndex((lane) => lane.name === name) < 0 ? lanes.length - 1 : lanes.findIndex((lane) => lane.name === name));
    lanes.forEach((lane, number) => {
        const x = left + gap * number;
        picture.append(svg("line", { class: "lane", x1: x, x2: x, y1: top - 8, y2: high }), svg("text", { x, y: 16, "text-anchor": "middle", "font-weight": "bold" }, lane.role),
            svg("text", { x, y: 32, "text-anchor": "middle", class: "quiet" }, lane.address));
    });
    // A request and its reply are joined by a bar on the server's lane.
    rows.forEach((row, at) => row.place = top + step * at + 18);
    for (const row of rows) {
        const asking = row.pair !== null ? list.rows[row.pair] : null;
        if (asking && rows.includes(asking)) {
            picture.append(svg("rect", { class: "held" + (row.error ? " error" : ""), x: middle(row.lanes[1]) - 4, y: asking.place, width: 8, height: Math.max(2, row.place - asking.place) }));
        }
    }
    for (const row of rows) {
        const [client, server] = row.lanes.map(middle), [from, to] = row.reply ? [server, client] : [client, server], y = row.place;
        const words = row.what + (row.error && row.what !== "not read" ? " " + row.error : "") + (row.pair !== null ? ", " + tookOf(row) : row.who ? ", " + row.who : "");
        const label = "Packet " + row.packet + ", " + secondsOf(row.time) + " s: " + words + (row.who && row.pair !== null ? ", " + row.who : "") + (row.whom ? ", for " + row.whom : "") + ", from " + row.from + " to " + row.to;
        const arrow = svg("g", { class: "arrow" + (row.error ? " error" : ""), role: "button", tabindex: row === rows[0] ? 0 : -1, "aria-label": label });
        const way = to >= from ? 1 : -1, [low, far] = [Math.min(from, to), Math.max(from, to)];
        arrow.row = row;
        arrow.append(svg("title", {}, row.line), svg("rect", { x: low, y: y - 17, width: Math.max(20, far - low), height: 22 }));
        arrow.append(svg("line", { x1: from, x2: to - 6 * way, y1: y, y2: y, "stroke-width": 1.5 }), svg("path", { d: "M" + to + " " + y + " l" + -8 * way + " -4 v8 z" }));
        const room = Math.max(8, Math.floor((far - low) / 6.6));
        arrow.append(svg("text", { x: (from + to) / 2, y: y - 5, "text-anchor": "middle" }, words.length > room ? words.slice(0, room - 2) + ".." : words));
        picture.append(svg("text", { x: 4, y: y + 4, class: "quiet" }, secondsOf(row.time)), arrow);
    }
    get("sequence").append(picture);
}

get("sequence-box").addEventListener("toggle", () => list && drawSequence());
get("sequence").addEventListener("click", (event) => {
    const arrow = event.target.closest(".arrow");
    if (arrow) openRow(arrow.row);
});
get("sequence").addEventListener("keydown", (event) => {
    const arrows = [...get("sequence").querySelectorAll(".arrow")], at = arrows.indexOf(event.target), last = arrows.length - 1;
    if (at < 0 || event.ctrlKey || event.metaKey || event.altKey) return;
    if (event.key === "Enter" || event.key === " ") {
        event.preventDefault();
        return openRow(arrows[at].row);
    }
    const steps = { ArrowDown: at + 1, ArrowUp: at - 1, PageDown: at + 10, PageUp: at - 10, Home: 0, End: last };
    if (!(event.key in steps)) return;
    event.preventDefault();
    const next = arrows[Math.max(0, Math.min(last, steps[event.key]))];
    for (const each of arrows) each.setAttribute("tabindex", each === next ? 0 : -1);
    next.focus();
});
