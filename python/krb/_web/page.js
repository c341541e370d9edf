// What the page does: what is given, and asking the server, which decodes. All text goes into the document by textContent.
"use strict";

const MOST_OCTETS = 3 << 20; // of a file, as the server takes it in base64
const MOST_CAPTURE = 64 << 20; // of a capture, as the server takes it
const MOST_LINK = 24 << 10; // octets in a link
const CAPTURES = ["a1b2c3d4", "d4c3b2a1", "a1b23c4d", "4d3cb2a1", "0a0d0d0a"]; // how they begin: pcap in either order, pcapng
const get = (id) => document.getElementById(id);

let file = null; // the octets of a file, and its name
let shown = null; // what the server said last, with the lines as objects
let list = null; // the messages of a capture, as the server told them
let picked = null; // the message of the list that is shown in place of it
let asked = 0; // requests so far: an answer to an earlier one is not shown
let held = null; // whether the server holds an answer open, which ends when the server does
let gone = false; // the server has ended: nothing is sent any more
let stopping = null; // what stops the reading of a capture
const GONE = "The server has ended. Close this page: nothing is sent any more.";

function made(tag, name, text) {
    const element = document.createElement(tag);
    if (name) element.className = name;
    if (text !== undefined) element.textContent = text;
    return element;
}

function base64(octets) {
    let text = "";
    for (let at = 0; at < octets.length; at += 0x8000) text += String.fromCharCode.apply(null, octets.subarray(at, at + 0x8000));
    return btoa(text);
}

function fromBase64(text) {
    const letters = atob(text), octets = new Uint8Array(letters.length);
    for (let at = 0; at < letters.length; at++) octets[at] = letters.charCodeAt(at);
    return octets;
}

function isCapture(octets) {
    return CAPTURES.includes([...octets.subarray(0, 4)].map((octet) => octet.toString(16).padStart(2, "0")).join(""));
}

async function octetsOf(given) {
    const most = isCapture(new Uint8Array(await given.slice(0, 4).arrayBuffer())) ? MOST_CAPTURE : MOST_OCTETS;
    if (given.size > most) throw new Error("The file has " + given.size + " octets; at most " + most + " are taken.");
    return new Uint8Array(await given.arrayBuffer());
}

function say(error, status) {
    get("error").textContent = gone ? GONE : error;
    get("status").textContent = gone ? "" : status;
}

// A sentence of a text; a program keeps its name.
function spoken(text) {
    return text && (text.startsWith("tshark") ? text : text[0].toUpperCase() + text.slice(1)) + (/[.!?]$/.test(text) ? "" : ".");
}

// The server.

// Has the server hold an answer open: whoever listens at its port once it has ended is to get no keys. False where it is busy, or has ended.
function hold() {
    if (!held) {
        held = fetch("alive", { credentials: "omit", cache: "no-store", redirect: "error" }).then((answer) => {
            if (!answer.ok) held = null;
            else wait(answer.body.getReader());
            return answer.ok;
        }, leave);
    }
    return held;
}

function wait(reader) {
    reader.read().then((piece) => piece.done ? leave() : wait(reader), leave);
}

// The server has ended: the keys go, and what is shown stays.
function leave() {
    gone = true;
    asked++;
    for (const id of ["keytabs", "keys", "password", "salt"]) get(id).value = "";
    for (const id of ["go", "show", "keytabs", "keys", "password", "salt"]) get(id).disabled = true;
    say("", "");
    return false;
}

hold();

// Asking.

function post(name, type, body, signal) {
    return fetch(name, { method: "POST", headers: { "Content-Type": type }, body, signal, credentials: "omit", cache: "no-store", redirect: "error" });
}

async function keysGiven() {
    const keytabs = [];
    for (const each of get("keytabs").files) keytabs.push(base64(await octetsOf(each)));
    return { keytabs, keys: get("keys").value, password: get("password").value, salt: get("salt").value, show: get("show").checked };
}

// Asks about what is given, or about a message of the list.
async function ask(message) {
    if (gone) return say("", "");
    const number = ++asked;
    if (stopping) stopping.abort();
    const linked = message || file ? null : inLink(get("input").value);
    if (linked) {
        get("input").value = linked.text;
        get("kind").value = linked.kind;
    }
    const octets = message ? fromBase64(message.octets) : file ? file.octets : new TextEncoder().encode(get("input").value);
    picked = message || null;
    if (!message) list = null;
    if (!octets.length) {
        clearResult();
        return say("There are no octets: paste some, choose a file, or click an example.", "");
    }
    say("", "Asking");
    try {
        const keys = await keysGiven();
        if (!await hold() || gone) throw new Error("The server is busy. Try again.");
        if (!message && isCapture(octets)) return await readCapture(number, octets, keys, "the octets themselves");
        const kind = message ? message.kind : get("kind").value.trim();
        const answer = await post("show", "application/json", JSON.stringify({ input: base64(octets), kind, ...keys }));
        if (number !== asked) return;
        if (!answer.ok) throw new Error("The server refuses this: " + (await answer.text()).trim() + " (" + answer.status + ").");
        const told = await answer.json();
        if (number !== asked) return;
        if (told.capture !== undefined) return await readCapture(number, fromBase64(told.capture), keys, told.form);
        present(told);
    } catch (error) {
        if (number !== asked) return;
        clearResult();
        say(error instanceof TypeError ? "The server does not answer. Is it still running?" : error.message, "");
    }
}

function clearResult() {
    shown = chosen = cursor = null;
    for (const id of ["result", "capture", "card", "table-pane", "link", "progress", "stop"]) get(id).hidden = true;
    get("of-capture").hidden = !picked;
    get("of-line").textContent = picked ? picked.line : "";
    for (const id of ["tree", "octets", "verdicts", "notes", "source", "messages", "sequence", "map", "legend", "table"]) get(id).replaceChildren();
    get("where").textContent = "";
    foldForm(false);
}

// Folds what is given to a line, once something is shown, or opens it again.
function foldForm(folded, can) {
    const within = get("fields").contains(document.activeElement) || document.activeElement === get("go");
    get("fields").hidden = get("go").hidden = get("go-help").hidden = folded;
    get("change").hidden = !(folded || can);
    get("change").setAttribute("aria-expanded", String(!folded));
    get("change").textContent = folded ? "Change octets and keys" : "Fold";
    if (folded && within) (get("card").hidden ? get("change") : get("card-title")).focus({ preventScroll: true });
}

get("change").addEventListener("click", () => {
    const folds = get("change").getAttribute("aria-expanded") === "true";
    foldForm(folds, true);
    if (folds) get("change").focus();
    else get("input").focus();
});

function note(notes) {
    for (const each of notes) get("notes").append(made("li", "", each));
}

function linesOf(told) {
    const outer = [], lines = [];
    for (const [depth, name, count, value, place] of told) {
        outer.length = depth;
        const around = depth ? outer[depth - 1] : null;
        const line = { name, count, value, place, around, depth, lines: [], number: lines.length, item: null };
        if (around) around.lines.push(line);
        outer.push(line);
        lines.push(line);
    }
    return lines;
}

function present(told) {
    clearResult();
    if (told.bad !== undefined) return say(spoken(told.bad), "");
    for (const each of told.sources) each.octets = fromBase64(each.octets);
    shown = told;
    shown.lines = linesOf(told.lines);
    const size = told.sources[0].size, error = told.error;
    const name = shown.lines.length && !error ? shown.lines[0].name + ", " : "";
    const place = error && error.offset !== null ? " The first error is at octet " + error.offset + "." : "";
    say(error ? spoken(error.text) + place : "", name + size + " octets, " + (picked ? "of the capture" : "given as " + told.form));
    presentCard(told);
    presentTable(told.table);
    note(told.notes);
    presentTree(told);
    get("link").hidden = told.secret || size > MOST_LINK;
    foldForm(!get("result").hidden, true);
}

// A link: the octets behind `#`, which no browser sends to a server, and no keys.

function linkOf() {
    const octets = base64(shown.sources[0].octets).replace(/\+/g, "-").replace(/\//g, "_").replace(/=+$/, "");
    const kind = (picked ? picked.kind : get("kind").value).trim();
    return location.origin + location.pathname + "#octets=" + octets + (kind ? "&as=" + encodeURIComponent(kind) : "");
}

// What a link, or what stands behind its `#`, holds.
function inLink(text) {
    const found = /^(?:https?:\/\/[^\s#]+)?#octets=([A-Za-z0-9_-]+)(?:&as=([A-Za-z0-9%-]{1,64}))?$/.exec(text.trim());
    if (!found) return null;
    let kind = "";
    try {
        kind = decodeURIComponent(found[2] || "");
    } catch (error) {
        return null;
    }
    const plain = found[1].replace(/-/g, "+").replace(/_/g, "/");
    return { text: plain + "=".repeat((4 - plain.length % 4) % 4), kind };
}

function followLink() {
    const found = inLink(location.hash);
    if (!found) return;
    forget();
    get("input").value = found.text;
    get("kind").value = found.kind;
    ask();
}

get("link").addEventListener("click", () => copy(linkOf(), "a link, which holds the octets and no keys"));
window.addEventListener("hashchange", followLink);
window.addEventListener("load", () => inLink(location.hash) ? followLink() : takeGiven());

// What the server was given when it was started, if anything.
async function takeGiven() {
    const number = asked;
    try {
        const answer = await fetch("given", { credentials: "omit", cache: "no-store", redirect: "error" });
        if (answer.status !== 200 || number !== asked) return;
        const given = { name: decodeURIComponent(answer.headers.get("X-File-Name") || ""), octets: new Uint8Array(await answer.arrayBuffer()) };
        if (number !== asked || file || get("input").value) return;
        file = given;
        nameFile();
        await ask();
    } catch (error) {
        // (the server has ended: `leave` says so)
    }
}

// Copying.

async function copy(text, what) {
    try {
        await navigator.clipboard.writeText(text);
        get("status").textContent = "Copied as " + what;
    } catch (error) {
        const area = made("textarea");
        area.value = text;
        document.body.append(area);
        area.select();
        const done = document.execCommand("copy");
        area.remove();
        get("status").textContent = done ? "Copied as " + what : "The browser does not allow to copy";
    }
}

get("copy-text").addEventListener("click", () => copy(shown.text, "text"));
get("copy-json").addEventListener("click", () => copy(shown.json, "JSON"));

// What is given.

// A name of a file without control characters, marks of direction and their like.
function plain(name) {
    return '"' + name.replace(/[\p{C}\p{Zl}\p{Zp}]/gu, (letter) => "\\u{" + letter.codePointAt(0).toString(16) + "}") + '"';
}

function nameFile() {
    get("file-text").textContent = file ? "The file " + plain(file.name) + " is taken, " + file.octets.length + " octets, and not the text above." : "";
    get("file-drop").hidden = !file;
    get("input").disabled = Boolean(file);
}

async function take(given) {
    try {
        file = { name: given.name, octets: await octetsOf(given) };
        nameFile();
        await ask();
    } catch (error) {
        clearResult();
        say(error.message, "");
    }
}

// Gives files of octets to a field.
function giveFiles(id, files) {
    const given = new DataTransfer();
    for (const [name, octets] of files) given.items.add(new File([octets], name));
    get(id).files = given.files;
}

// Forgets what was given, and what was shown of it.
function forget() {
    asked++;
    if (stopping) stopping.abort();
    file = list = picked = null;
    get("form").reset();
    nameFile();
    clearResult();
    say("", "");
}

get("form").addEventListener("submit", (event) => {
    event.preventDefault();
    ask();
});
get("input").addEventListener("keydown", (event) => {
    if (event.key === "Enter" && (event.ctrlKey || event.metaKey)) {
        event.preventDefault();
        ask();
    }
});
get("input").addEventListener("paste", (event) => {
    if (event.clipboardData && event.clipboardData.files.length) {
        event.preventDefault();
        take(event.clipboardData.files[0]);
    } else {
        setTimeout(ask, 0); // (the text is there then)
    }
});
get("file").addEventListener("change", () => {
    if (get("file").files.length) take(get("file").files[0]);
});
get("file-drop").addEventListener("click", () => {
    file = null;
    get("file").value = "";
    nameFile();
    get("input").focus();
});
get("show").addEventListener("change", () => {
    if (shown || picked) ask(picked);
});
get("clear").addEventListener("click", () => {
    forget();
    get("input").focus();
});
window.addEventListener("pagehide", () => get("form").reset());
document.addEventListener("paste", (event) => {
    const text = event.clipboardData && event.clipboardData.getData("text/plain");
    if (!text || event.target.closest("input, textarea")) return;
    file = null;
    nameFile();
    get("input").value = text;
    ask();
});
document.addEventListener("dragover", (event) => {
    event.preventDefault();
    document.body.classList.add("over");
});
document.addEventListener("dragleave", (event) => {
    if (!event.relatedTarget) document.body.classList.remove("over");
});
document.addEventListener("drop", (event) => {
    event.preventDefault();
    document.body.classList.remove("over");
    const dropped = event.dataTransfer;
    if (dropped.files.length && event.target.closest && event.target.closest("#keys-box")) {
        get("keytabs").files = dropped.files;
        get("keys-box").open = true;
    } else if (dropped.files.length) take(dropped.files[0]);
    else if (dropped.getData("text/plain")) {
        file = null;
        nameFile();
        get("input").value = dropped.getData("text/plain");
        ask();
    }
});
