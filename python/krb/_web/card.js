// The card on top, who holds which key, and the tables of keytabs and caches.
"use strict";

const SKEW = 300; // seconds by which clocks may differ, as services allow (RFC 4120, 1.6)
const DAY = 86400;

// Milliseconds since 1970 of a time as the library writes it; null where it is none that Date has.
function momentOf(text) {
    if (!/^\d{4}-\d\d-\d\dT\d\d:\d\d:\d\dZ$/.test(text || "")) return null;
    const time = new Date(text);
    return isNaN(time.getTime()) || time.toISOString().slice(0, 19) + "Z" !== text ? null : time.getTime();
}

function localOf(value) {
    const time = momentOf(value);
    if (time === null) return "";
    const words = { year: "numeric", month: "short", day: "numeric", hour: "2-digit", minute: "2-digit", second: "2-digit", timeZoneName: "short", hourCycle: "h23" };
    return new Date(time).toLocaleString(undefined, words);
}

// A span of time in its two largest units.
function spanOf(milliseconds) {
    let left = Math.round(Math.abs(milliseconds) / 1000);
    const parts = [];
    for (const [size, unit] of [[365 * DAY, "y"], [DAY, "d"], [3600, "h"], [60, "min"], [1, "s"]]) {
        const count = Math.floor(left / size);
        left -= count * size;
        if (count || parts.length) parts.push([count, unit]);
        if (parts.length === 2) break;
    }
    return parts.filter(([count]) => count).map(([count, unit]) => count + " " + unit).join(" ") || "0 s";
}

function chooseLine(number) {
    if (!shown || !shown.lines[number]) return;
    choose(shown.lines[number], false, true);
    get("result").scrollIntoView({ block: "nearest" });
}

// A button that leads to a line of the tree, or the text alone where the tree has not that line.
function leads(name, text, number) {
    if (!shown.lines[number]) return made("span", name, text);
    const button = made("button", (name + " to-line").trim(), text);
    button.type = "button";
    button.addEventListener("click", () => chooseLine(number));
    return button;
}

function presentCard(told) {
    const card = told.card;
    get("card").hidden = !card;
    for (const id of ["facts", "times-list", "checks", "chains", "bar"]) get(id).replaceChildren();
    get("service").hidden = !told.verdicts.length;
    told.verdicts.forEach(([isLetIn, why, rule], number) => {
        const item = made("li", isLetIn ? "good" : "bad");
        item.append(made("b", "", (told.verdicts.length < 2 ? "" : number ? "When it was sent: " : "Now: ") + (isLetIn ? "yes" : "no")), made("span", "", ", " + why));
        if (rule) item.append(made("span", "quiet", " (" + rule + ")"));
        get("verdicts").append(item);
    });
    if (!card) return;
    get("card-title").textContent = card.title;
    let before = null;
    for (const [label, text, kind] of card.facts) {
        if (label !== before) get("facts").append(made("dt", "", label));
        get("facts").append(made("dd", kind, text));
        before = label;
    }
    get("card-body").hidden = !card.facts.length && !card.times && !card.checks.length;
    presentTimes(card.times);
    get("holds").hidden = !card.checks.length;
    for (const [what, kind, text, number] of card.checks) {
        const item = made("li", "check-line " + (kind || "grey"));
        item.append(leads("", what, number), made("span", "verdict", text));
        get("checks").append(item);
    }
    presentChains(card.chains);
}

// What is said of a ticket's times now. Services allow clocks to differ, so the words say where a time is that near.
function wordsOf(start, end, now, invalid) {
    const skew = SKEW * 1000;
    if (invalid) return ["bad", "The ticket has the flag invalid: no service takes it."];
    if (start !== null && now < start) {
        return now >= start - skew ? ["", "Not yet valid, by " + spanOf(start - now) + ": within the time that clocks may differ."] : ["bad", "Not yet valid: it begins in " + spanOf(start - now) + "."];
    }
    if (now > end) return now <= end + skew ? ["", "Expired " + spanOf(now - end) + " ago: within the time that clocks may differ."] : ["bad", "Expired " + spanOf(now - end) + " ago."];
    return ["good", "Valid for another " + spanOf(end - now) + "."];
}

function presentTimes(told) {
    get("times").hidden = !told;
    if (!told) return;
    const now = Date.now(), times = told.times, end = momentOf(times.endtime);
    const start = momentOf(times.starttime || times.authtime), renew = momentOf(times["renew-till"]), made_at = momentOf(times.authtime), sent = momentOf(told.sent);
    const [kind, words] = end === null ? ["", "Its end is no time that the browser has."] : wordsOf(start, end, now, told.invalid);
    get("times-words").className = kind;
    get("times-words").textContent = words;
    const known = [made_at, start, end, renew].filter((each) => each !== null);
    const first = Math.min(...known), last = Math.max(...known), wide = Math.max(last - first, 1000);
    // "now" is in the scale where it is as near as the ticket is long, else at its edge.
    const isNear = now > first - wide && now < last + wide;
    const from = Math.min(first, isNear ? now : first) - wide * 0.06, to = Math.max(last, isNear ? now : last) + wide * 0.06;
    const at = (time) => Math.max(0, Math.min(100, (time - from) / (to - from) * 100));
    const bar = get("bar");
    const span = (name, begin, finish) => {
        const each = made("span", name);
        each.style.left = at(begin) + "%";
        each.style.width = Math.max(0.6, at(finish) - at(begin)) + "%";
        bar.append(each);
    };
    if (end !== null) {
        const begin = start === null ? first : start;
        if (renew !== null && renew > end) span("renewable", end, renew);
        span("skew", begin - SKEW * 1000, begin);
        span("skew", end, end + SKEW * 1000);
        span("valid", begin, Math.max(begin, end));
    }
    const mark = (name, time) => {
        const each = made("span", name);
        each.style.left = at(time) + "%";
        bar.append(each);
    };
    if (sent !== null && sent >= from && sent <= to) mark("sent", sent);
    mark("now" + (isNear ? "" : now > last ? " later" : " earlier"), now);
    bar.setAttribute("aria-label", "The ticket's times. " + words + (renew !== null ? " It may be renewed until " + times["renew-till"] + "." : ""));
    const list = (label, text, name) => text && get("times-list").append(made("dt", name || "", label), made("dd", "", text + (localOf(text) ? " (" + localOf(text) + ")" : "")));
    list("authtime", times.authtime);
    list("starttime", times.starttime);
    list("endtime", times.endtime, "of-end");
    list("renew-till", times["renew-till"], "of-renew");
    list("client's clock", told.sent, "of-sent");
    list("now", new Date(now).toISOString().slice(0, 19) + "Z", "of-now");
}

function presentChains(chains) {
    get("holders").hidden = !chains.length;
    const words = { held: "known", missing: "not known", open: "open", closed: "closed", clear: "in the clear" };
    for (const chain of chains) {
        const line = made("ol", "chain");
        for (const node of chain) {
            const item = made("li", "node " + node.kind + " " + node.state);
            item.append(leads("title", node.title, node.line), made("span", "state", words[node.state]));
            if (node.text) item.append(made("span", "more", node.text));
            line.append(item);
        }
        get("chains").append(line);
    }
}

function presentTable(table) {
    get("table-pane").hidden = !table;
    if (!table) return;
    get("table-title").textContent = table.title;
    const head = made("thead"), names = made("tr"), body = made("tbody"), now = Date.now();
    for (const each of [...table.columns, "Note"]) {
        const cell = made("th", "", each);
        cell.scope = "col";
        names.append(cell);
    }
    head.append(names);
    const until = table.columns.indexOf("Until"), principal = table.columns.findIndex((each) => each === "Principal" || each === "Service");
    for (const row of table.rows) {
        const line = made("tr", row.mark ? "aside" : ""), end = until >= 0 ? momentOf(row.cells[until]) : null;
        row.cells.forEach((text, number) => {
            const cell = made("td");
            if (number === principal) cell.append(leads("", text, row.line));
            else cell.textContent = text;
            if (localOf(text)) [cell.title, cell.className] = [localOf(text), "time"];
            line.append(cell);
        });
        const isOver = end !== null && end < now && !row.mark;
        if (isOver) line.classList.add("expired");
        line.append(made("td", isOver ? "bad" : "", row.mark || (isOver ? "expired " + spanOf(now - end) + " ago" : "")));
        body.append(line);
    }
    get("table").append(head, body);
    if (table.count > table.rows.length) note(["The table has " + table.rows.length + " of " + table.count + " entries; the tree and the text have more."]);
    if (!table.rows.length) note(["There is no entry."]);
}
