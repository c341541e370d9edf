// The tree of fields, the octets beside it, and their map.
"use strict";

const WINDOW = 4096; // octets that are in the document at once
const MANY = 400; // lines beyond which a tree is not all open at first
const MOST_AREAS = 120; // of the map

let chosen = null; // the line that is chosen
let source = 0; // whose octets are shown
let start = 0; // the first octet that is shown
let cursor = null; // the octet that the keyboard is on

function presentTree(told) {
    const error = told.error;
    told.sources.forEach((each, number) => {
        const option = made("option", "", each.title + " (" + each.size + ")");
        option.value = number;
        get("source").append(option);
    });
    get("tree-pane").hidden = !shown.lines.length;
    get("octets-pane").hidden = told.hidden;
    get("copy-text").disabled = !told.text;
    get("copy-json").disabled = !told.json;
    get("result").hidden = !shown.lines.length && told.hidden;
    for (const line of shown.lines) line.area = areaOf(line);
    const all = shown.lines.length <= MANY;
    for (const line of shown.lines) if (line.depth === 0) get("tree").append(itemOf(line, all ? Infinity : 3));
    const first = get("tree").firstElementChild;
    if (first) first.tabIndex = 0;
    chosen = null;
    goTo(0, error && error.offset !== null ? error.offset : 0);
    if (error && error.offset !== null) get("where").textContent = "the first error is at octet " + error.offset;
}

// What colour a line has, in the tree and in the map.

const AREAS = {
    frame: "frame and fields", name: "names and realms", time: "times", cipher: "ciphertext", part: "opened", key: "keys", pac: "PAC", check: "checksums",
};
const PARTS = ["EncTicketPart", "Authenticator", "EncASRepPart", "EncTGSRepPart", "EncAPRepPart", "EncKrbPrivPart", "EncKrbCredPart", "PA-ENC-TS-ENC"];
const NAMES = ["realm", "crealm", "srealm", "prealm", "cname", "sname", "pname", "client", "server", "principal"];

function ownArea(line) {
    const name = line.name;
    if (name === "cipher") return "cipher";
    if (name === "key" || name === "subkey" || name === "keyvalue" || line.value === "hidden") return "key";
    if (name.endsWith("-checksum") || name === "PAC-checksums" || name === "cksum" || name === "checksum") return "check";
    if (line.lines.length && line.lines[0].name === "ulType") return "pac";
    if (PARTS.includes(name)) return "part";
    if (NAMES.includes(name)) return "name";
    return line.value !== null && momentOf(line.value) !== null ? "time" : "";
}

// The area of a line is its own, or that of what it stands in; what an opened part holds has its colour but for names, times, keys, checksums and PACs.
function areaOf(line) {
    return ownArea(line) || (line.around ? line.around.area : "frame");
}

// The tree.

function verdict(line) {
    if (line.value === "hidden") return "hidden";
    if (line.name === "opened-by") return "opened";
    if (line.name === "not-opened") return "closed";
    if (!line.name.endsWith("-checksum")) return "";
    if (line.value === "holds") return "good";
    return line.value === "absent" || line.value.startsWith('"not verified: ') ? "grey" : "bad";
}

function itemOf(line, open) {
    const item = made("li");
    item.setAttribute("role", "treeitem");
    item.setAttribute("aria-level", line.depth + 1);
    item.setAttribute("aria-selected", "false");
    item.tabIndex = -1;
    item.line = line;
    line.item = item;
    const row = made("div", "row area-" + line.area);
    const twig = made("span", "twig", line.lines.length ? "\u25b8" : "");
    twig.setAttribute("aria-hidden", "true");
    row.append(twig, made("span", "name", line.name + (line.count === null ? "" : "[" + line.count + "]") + ":"));
    if (line.value !== null) {
        row.append(made("span", ("value " + verdict(line)).trim(), line.value));
        const local = localOf(line.value);
        if (local) row.append(made("span", "local", "(" + local + ")"));
    }
    item.append(row);
    if (line.lines.length) {
        item.setAttribute("aria-expanded", "false");
        if (open > 1) unfold(item, open - 1);
    }
    return item;
}

function unfold(item, open) {
    if (!item.line.lines.length) return;
    let group = item.querySelector(":scope > ul");
    if (!group) {
        group = made("ul");
        group.setAttribute("role", "group");
        for (const line of item.line.lines) group.append(itemOf(line, open || 1));
        item.append(group);
    } else if (open > 1) {
        for (const each of group.children) unfold(each, open - 1);
    }
    group.hidden = false;
    item.setAttribute("aria-expanded", "true");
    item.querySelector(".twig").textContent = "\u25be";
}

function fold(item) {
    const group = item.querySelector(":scope > ul");
    if (!group) return;
    group.hidden = true;
    item.setAttribute("aria-expanded", "false");
    item.querySelector(".twig").textContent = "\u25b8";
}

// The item of a line, with all that it stands in open.
function reveal(line) {
    const around = [];
    for (let each = line.around; each; each = each.around) around.unshift(each);
    for (const each of around) unfold(each.item, 1);
    return line.item;
}

// The place of a line, or of what it stands in.
function placeOf(line) {
    for (let each = line; each; each = each.around) if (each.place) return each.place;
    return null;
}

function choose(line, focuses, moves) {
    if (chosen) {
        chosen.item.setAttribute("aria-selected", "false");
        chosen.item.tabIndex = -1;
    } else {
        for (const each of get("tree").children) each.tabIndex = -1;
    }
    chosen = line;
    const item = reveal(line);
    item.setAttribute("aria-selected", "true");
    item.tabIndex = 0;
    if (focuses) item.focus({ preventScroll: true });
    item.querySelector(".row").scrollIntoView({ block: "nearest", inline: "nearest" });
    const place = placeOf(line);
    if (place && moves) {
        const inside = place[0] === source && place[1] >= start && place[1] < start + WINDOW;
        if (!inside) goTo(place[0], place[1]);
        cursor = place[2] ? place[1] : null;
    }
    light(null);
    if (place && moves) showOctet(place[1]);
    tellWhere();
}

function tellWhere() {
    const place = chosen && placeOf(chosen);
    if (!chosen) return;
    const exact = place && placeOf(chosen) === chosen.place;
    const places = (from, size) => (size ? "octets " + from + " to " + (from + size - 1) + ", " + size : "no octets, behind " + from) + " of " + shown.sources[place[0]].title;
    get("where").textContent = chosen.name + ": " + (place ? (exact ? "" : "within ") + places(place[1], place[2]) : "no place");
}

function visible() {
    return [...get("tree").querySelectorAll("li")].filter((item) => !item.parentElement.closest("ul[hidden]"));
}

get("tree").addEventListener("click", (event) => {
    const item = event.target.closest("li");
    if (!item) return;
    choose(item.line, true, true);
    if (event.target.closest(".twig")) item.getAttribute("aria-expanded") === "true" ? fold(item) : unfold(item, 1);
});
get("tree").addEventListener("dblclick", (event) => {
    const item = event.target.closest("li");
    if (item && !event.target.closest(".twig")) item.getAttribute("aria-expanded") === "true" ? fold(item) : unfold(item, 1);
});
get("tree").addEventListener("focusin", (event) => {
    const item = event.target.closest("li");
    if (item && item.line !== chosen && event.target === item) choose(item.line, false, true);
});
get("tree").addEventListener("mouseover", (event) => {
    const item = event.target.closest("li"), value = event.target.closest(".value");
    // What is cut has its whole text where it is pointed at; where it is touched it is chosen, and whole.
    if (value && value.scrollWidth > value.clientWidth + 1) value.title = value.textContent;
    else if (value) value.removeAttribute("title");
    light(item ? item.line : null);
});
get("tree").addEventListener("mouseleave", () => light(null));
get("tree").addEventListener("keydown", (event) => {
    const item = event.target.closest("li");
    if (!item || event.ctrlKey || event.metaKey || event.altKey) return;
    const items = visible(), at = items.indexOf(item), isOpen = item.getAttribute("aria-expanded");
    let to = null;
    switch (event.key) {
        case "ArrowDown": to = items[at + 1]; break;
        case "ArrowUp": to = items[at - 1]; break;
        case "Home": to = items[0]; break;
        case "End": to = items[items.length - 1]; break;
        case "ArrowRight":
            if (isOpen === "false") unfold(item, 1);
            else if (isOpen === "true") to = items[at + 1];
            break;
        case "ArrowLeft":
            if (isOpen === "true") fold(item);
            else to = item.line.around ? item.line.around.item : null;
            break;
        case "Enter":
        case " ":
            if (isOpen !== null) isOpen === "true" ? fold(item) : unfold(item, 1);
            break;
        case "*":
            for (const each of item.parentElement.children) unfold(each, 1);
            break;
        default:
            if (event.key.length !== 1) return;
            to = [...items.slice(at + 1), ...items.slice(0, at)].find((each) => each.line.name.toLowerCase().startsWith(event.key.toLowerCase()));
    }
    event.preventDefault();
    if (to) choose(to.line, true, true);
});
get("open-all").addEventListener("click", () => {
    for (const each of get("tree").children) unfold(each, Infinity);
});
get("close-all").addEventListener("click", () => {
    for (const each of get("tree").querySelectorAll("li[aria-expanded=true]")) fold(each);
    if (chosen) choose(shown.lines[0], false, true);
});

// The octets.

function isMasked(octet) {
    return shown.sources[source].masks.some(([offset, size]) => octet >= offset && octet < offset + size);
}

function goTo(number, octet) {
    source = number;
    get("source").value = number;
    const size = shown.sources[source].size;
    start = Math.max(0, Math.min(Math.floor(octet / WINDOW) * WINDOW, size));
    if (size && start >= size) start = Math.floor((size - 1) / WINDOW) * WINDOW;
    const { octets, masks } = shown.sources[source], end = Math.min(size, start + WINDOW);
    const masked = new Uint8Array(WINDOW);
    for (const [offset, length] of masks) for (let at = Math.max(offset, start); at < Math.min(offset + length, end); at++) masked[at - start] = 1;
    const error = source === 0 && shown.error ? shown.error.offset : null;
    const rows = document.createDocumentFragment(), wide = Math.max(4, size.toString(16).length);
    for (let at = start; at < end; at += 16) {
        const row = made("div", "dump"), hex = made("span", "hex"), letters = made("span", "letters");
        row.append(made("span", "at", at.toString(16).padStart(wide, "0")), hex, letters);
        letters.setAttribute("aria-hidden", "true");
        for (let n = at; n < Math.min(at + 16, end); n++) {
            const octet = octets[n], hidden = masked[n - start];
            const pair = made("b", n === error ? "fault" : "", hidden ? "\u00b7\u00b7" : octet.toString(16).padStart(2, "0"));
            const letter = made("b", n === error ? "fault" : "", hidden ? "\u00b7" : octet >= 32 && octet < 127 ? String.fromCharCode(octet) : ".");
            pair.at = letter.at = n;
            hex.append(pair);
            letters.append(letter);
        }
        rows.append(row);
    }
    get("octets").replaceChildren(rows);
    get("earlier").disabled = start === 0;
    get("later").disabled = end >= size;
    cursor = null;
    drawMap();
    light(null);
    if (error !== null) showOctet(error);
}

function cellsOf(octet) {
    const row = get("octets").children[Math.floor((octet - start) / 16)];
    if (!row || octet < start) return [];
    const n = (octet - start) % 16;
    return [row.children[1].children[n], row.children[2].children[n]].filter(Boolean);
}

function showOctet(octet) {
    const [cell] = cellsOf(octet);
    if (cell) cell.parentElement.parentElement.scrollIntoView({ block: "nearest", inline: "nearest" });
}

function mark(line, name) {
    const place = line && placeOf(line);
    if (!place || place[0] !== source) return;
    const from = Math.max(place[1], start), to = Math.min(place[1] + place[2], start + WINDOW);
    for (let at = from; at < to; at++) for (const cell of cellsOf(at)) cell.classList.add(name);
}

// Lights up what is chosen, and a line that is pointed at with its octets.
function light(line) {
    for (const name of ["chosen", "lit", "cursor"]) for (const each of get("octets").querySelectorAll("b." + name)) each.classList.remove(name);
    for (const each of get("tree").querySelectorAll(".row.lit")) each.classList.remove("lit");
    if (!shown) return;
    mark(chosen, "chosen");
    if (line && line !== chosen) {
        mark(line, "lit");
        if (line.item) line.item.querySelector(".row").classList.add("lit");
    }
    if (cursor !== null && document.activeElement === get("octets")) for (const cell of cellsOf(cursor)) cell.classList.add("cursor");
}

// The line deepest in the tree whose octets these are among.
function lineAt(octet) {
    let best = null;
    for (const line of shown.lines) {
        const place = line.place;
        if (place && place[0] === source && octet >= place[1] && octet < place[1] + place[2] && (!best || place[2] <= best.place[2])) best = line;
    }
    return best;
}

get("octets").addEventListener("mouseover", (event) => {
    if (event.target.at !== undefined) light(lineAt(event.target.at));
});
get("octets").addEventListener("mouseleave", () => light(null));
get("octets").addEventListener("click", (event) => {
    if (event.target.at === undefined) return;
    moveTo(event.target.at);
});
get("octets").addEventListener("focus", () => {
    if (cursor === null) cursor = start;
    light(null);
});
get("octets").addEventListener("blur", () => light(null));

function moveTo(octet) {
    const size = shown.sources[source].size;
    if (!size) return;
    octet = Math.max(0, Math.min(size - 1, octet));
    if (octet < start || octet >= start + WINDOW) goTo(source, octet);
    cursor = octet;
    const line = lineAt(octet);
    if (line) choose(line, false, false);
    light(null);
    showOctet(octet);
    const value = isMasked(octet) ? "hidden" : shown.sources[source].octets[octet].toString(16).padStart(2, "0");
    get("where").textContent = "octet " + octet + ", " + value + (line ? ", of " + line.name : "");
}

get("octets").addEventListener("keydown", (event) => {
    if (event.ctrlKey || event.metaKey || event.altKey || cursor === null) return;
    const steps = { ArrowLeft: -1, ArrowRight: 1, ArrowUp: -16, ArrowDown: 16, PageUp: -256, PageDown: 256, Home: -(cursor % 16), End: 15 - (cursor % 16) };
    if (!(event.key in steps)) return;
    event.preventDefault();
    moveTo(cursor + steps[event.key]);
});
get("source").addEventListener("change", () => goTo(Number(get("source").value), 0));
get("earlier").addEventListener("click", () => goTo(source, start - WINDOW));
get("later").addEventListener("click", () => goTo(source, start + WINDOW));

// The map: the octets that are shown, a part as wide as it is long, in the colours of the tree.

function areasOf(number) {
    const size = shown.sources[number].size, most = Math.min(size, 1 << 20);
    if (!most) return [];
    const owner = new Int32Array(most).fill(-1);
    for (const line of shown.lines) {
        const place = line.place;
        if (!place || place[0] !== number || line.depth > 60) continue;
        // (a line of the colour of the one around it is no part of its own)
        const around = line.around && line.around.place && line.around.place[0] === number ? line.around : null;
        line.root = around && around.area === line.area && around.root !== undefined ? around.root : line.number;
        owner.fill(line.root, place[1], place[1] + place[2]);
    }
    let areas = [];
    for (let at = 0; at < most; at++) {
        const last = areas[areas.length - 1];
        if (last && last.owner === owner[at]) last.size++;
        else areas.push({ owner: owner[at], at, size: 1 });
    }
    if (areas.length > MOST_AREAS) {
        const step = most / MOST_AREAS, merged = [];
        let from = 0;
        for (const each of areas) {
            const last = merged[merged.length - 1];
            if (last && each.at < from) last.size = each.at + each.size - last.at;
            else {
                merged.push({ ...each });
                from = each.at + step;
            }
        }
        areas = merged;
    }
    return areas;
}

function drawMap() {
    const map = get("map"), number = source;
    if (map.source === number && map.of === shown) return;
    map.source = number;
    map.of = shown;
    map.replaceChildren();
    get("legend").replaceChildren();
    const used = new Set();
    for (const each of areasOf(number)) {
        const line = shown.lines[each.owner], area = line ? line.area : "frame", name = line ? line.name : "octets";
        const button = made("button", "area area-" + area);
        button.type = "button";
        button.style.flexGrow = each.size;
        const text = name + ", " + AREAS[area] + ": octets " + each.at + " to " + (each.at + each.size - 1);
        button.setAttribute("aria-label", text);
        button.title = text;
        button.tabIndex = map.children.length ? -1 : 0;
        button.area = each;
        used.add(area);
        map.append(button);
    }
    for (const area of Object.keys(AREAS)) {
        if (!used.has(area) && !shown.lines.some((line) => line.area === area)) continue;
        const item = made("li");
        item.append(made("span", "swatch area-" + area), made("span", "", AREAS[area]));
        item.firstChild.setAttribute("aria-hidden", "true");
        get("legend").append(item);
    }
}

get("map").addEventListener("click", (event) => {
    const button = event.target.closest("button");
    if (!button) return;
    for (const each of get("map").children) each.tabIndex = each === button ? 0 : -1;
    if (button.area.at < start || button.area.at >= start + WINDOW) goTo(source, button.area.at);
    const line = shown.lines[button.area.owner];
    if (line) choose(line, false, false);
    cursor = button.area.at;
    light(null);
    showOctet(button.area.at);
    tellWhere();
});
get("map").addEventListener("keydown", (event) => {
    const buttons = [...get("map").children], at = buttons.indexOf(event.target), last = buttons.length - 1;
    const steps = { ArrowRight: at + 1, ArrowDown: at + 1, ArrowLeft: at - 1, ArrowUp: at - 1, Home: 0, End: last };
    if (at < 0 || event.ctrlKey || event.metaKey || event.altKey || !(event.key in steps)) return;
    event.preventDefault();
    const next = buttons[Math.max(0, Math.min(last, steps[event.key]))];
    for (const each of buttons) each.tabIndex = each === next ? 0 : -1;
    next.focus();
});
