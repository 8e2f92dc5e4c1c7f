"use strict";
// The page of an output: the device tree at each moment of its history. The output stands in the element `run`, as tools/json
// makes it. `World` is what a history has come to; the page shows one world and goes to others by replaying events.
(function () {
    const run = JSON.parse(document.getElementById("run").textContent);
    const byId = (id) => document.getElementById(id);
    const events = run.history || [];
    const tables = run.tables || [];
    const rows = tables.filter((line) => line.kind === "row");
    const offers = new Map(tables.filter((line) => line.kind === "device").map((line) => [line.name, line.offers || []]));
    const definition = (name) => name.replace(/[0-9]+$/, "");

    // ---- texts

    function bare(event) {
        const device = event.device === undefined ? "" : " " + event.device;
        switch (event.act) {
        case "found": case "final": {
            const start = event.act + " " + event.parent + (event.act === "final" ? ": " + event.answer : "");
            if (event.spot === undefined) return start;
            return start + " on " + event.spot + ": " + (event.device === null ? "not configured" : event.device + " row " + event.row);
        }
        case "scan": return "scan" + device + ": done";
        case "done": return "done" + device + ": " + event.answer;
        case "io": return "io" + device + " " + event.value + ": " + event.reply;
        case "open": return "open" + (event.sole ? " -x" : "") + device + ": " + event.reply;
        case "plug": case "unplug": return event.act + " " + event.spot + ": " + event.reply;
        case "list": case "tree": {
            if (event.reply !== undefined) return event.act + device + ": " + event.reply;
            const names = event.names.map((it) => (event.act === "list" ? it : it.depth + " " + it.name));
            return event.act + device + ": " + (names.length > 12 ? names.slice(0, 12).join(" ") + " .." : names.join(" "));
        }
        default: return event.act + device + (event.reply === undefined ? "" : ": " + event.reply);
        }
    }

    const text = (event) => event.caller + "." + event.command + " " + bare(event);

    function heldText(device) {
        if (!device.held.size) return "";
        return Array.from(device.held.keys()).sort((a, b) => a - b).map((caller) => {
            const times = device.held.get(caller);
            return caller + (times > 1 ? "*" + times : "") + (device.sole === caller ? "!" : "");
        }).join(" ");
    }

    // The line of a device as the output would have it.
    function lineOf(device) {
        const held = heldText(device);
        return device.name + " at " + device.parent + " row " + device.row + (device.asleep ? " asleep" : "") +
            (device.condemner === null ? "" : " condemned") + (held ? " held " + held : "");
    }

    function rowText(number) {
        const row = rows[number];
        if (!row) return "row " + number;
        const values = row.locators.map((it) => it.name + "=" + it.value);
        return "row " + number + " " + row.name + (row.from === undefined ? "" : " from " + row.from) + " at " + row.at + " by " + row.by +
            " on " + row.on + (values.length ? " " + values.join(" ") : "") + " flags " + row.flags;
    }

    // ---- what a history has come to

    class World {
        constructor() {
            this.at = -1;
            this.serial = 0;
            this.devices = new Map();
            this.tops = [];
            this.callers = new Map();
            this.onSpot = new Map();
            this.power = null;
            this.booted = false;
            this.changes = [];
            this.isQuiet = false;
        }

        caller(number) {
            let it = this.callers.get(number);
            if (!it) this.callers.set(number, it = { number: number, last: -1, doing: null, searches: new Map(), ended: false });
            return it;
        }

        children(name) {
            return name === "root" ? this.tops : this.devices.has(name) ? this.devices.get(name).children : [];
        }

        below(device, list) {
            list.push(device);
            for (const child of device.children) this.below(this.devices.get(child), list);
            return list;
        }

        // What an event changed is put into words only for the event that is shown.
        tell(words, names) { if (!this.isQuiet) this.changes.push({ words: words(), names: names ? names() : [] }); }

        // The event happens. `changes` is then what it changed.
        step() {
            const event = events[++this.at];
            const caller = this.caller(event.caller);
            this.changes = [];
            caller.last = this.at;
            const act = World.acts[event.act];
            if (act) act(this, event, caller);
        }

        attach(event, caller) {
            if (event.device === null) {
                this.tell(() => "No driver takes the spot " + event.spot + " below " + event.parent + ".");
                return;
            }
            const device = {
                name: event.device, parent: event.parent, row: event.row, spot: event.spot, serial: ++this.serial, children: [],
                asleep: false, condemner: null, held: new Map(), sole: null, came: this.at,
            };
            this.devices.set(device.name, device);
            this.children(event.parent).push(device.name);
            this.onSpot.set(event.spot, device.name);
            this.tell(() => device.name + " came to " + event.spot + " below " + event.parent + ", by row " + event.row + ".", () => [device.name]);
            if ((offers.get(definition(device.name)) || []).length) this.search(device, caller, 1);
        }

        // So many searches more that the caller has not ended below the device.
        search(device, caller, by) {
            if (!device) return;
            const left = (caller.searches.get(device.name) || 0) + by;
            if (left > 0) caller.searches.set(device.name, left); else caller.searches.delete(device.name);
        }

        condemn(name, caller) {
            const device = this.devices.get(name);
            if (!device) return;
            const list = this.below(device, []).sort((a, b) => a.serial - b.serial);
            for (const it of list) it.condemner = caller.number;
            caller.doing = { what: "detach", device: name, left: list };
            this.tell(() => (list.length === 1 ? name + " is" : name + " with all below it, " + list.length + " devices, is") + " condemned.", () => list.map((it) => it.name));
        }

        free(name, caller) {
            const device = this.devices.get(name);
            if (!device) return;
            const around = this.children(device.parent);
            const place = around.lastIndexOf(name);
            if (place >= 0) around.splice(place, 1);
            this.devices.delete(name);
            if (this.onSpot.get(device.spot) === name) this.onSpot.delete(device.spot);
            const doing = caller.doing;
            if (doing && doing.what === "detach") {
                while (doing.left.length && this.devices.get(doing.left[doing.left.length - 1].name) !== doing.left[doing.left.length - 1])
                    doing.left.pop();
                if (doing.device === name) caller.doing = null;
            }
            this.tell(() => name + " is gone; its spot " + device.spot + " is free.", () => [device.parent]);
        }

        hold(name, caller, by, sole) {
            const device = this.devices.get(name);
            if (!device) return;
            const left = (device.held.get(caller.number) || 0) + by;
            if (left > 0) device.held.set(caller.number, left); else device.held.delete(caller.number);
            device.sole = sole && left > 0 ? caller.number : null;
            this.tell(() => name + (device.held.size ? " is held: " + heldText(device) + "." : " is held by nobody."), () => [name]);
        }

        // The latest of those below the device that are awake.
        nextToSleep(name) {
            const device = this.devices.get(name);
            if (!device) return null;
            return this.below(device, []).reduce((best, it) => (it.asleep || best && best.serial > it.serial ? best : it), null);
        }

        searchers(name) {
            return Array.from(this.callers.values()).filter((it) => it.searches.has(name)).map((it) => it.number);
        }

        // What the caller does or waits for: [words, whether it waits].
        state(caller) {
            const doing = caller.doing;
            if (caller.ended) return ["has ended", false];
            if (!this.booted && caller.number > 0) return ["waits until the boot has ended", true];
            if (doing && doing.what === "detach") {
                const next = doing.left[doing.left.length - 1];
                if (next && next.held.size) return ["waits to free " + next.name + ", held by " + heldText(next), true];
                return ["detaches " + doing.device + (next ? ": frees " + next.name + " next" : ""), false];
            }
            if (doing && doing.what === "suspend") {
                const next = this.nextToSleep(doing.device);
                const by = next ? this.searchers(next.name) : [];
                if (by.length) return ["waits to suspend " + next.name + ": caller " + by.join(", ") + " searches below it", true];
                return ["suspends " + doing.device, false];
            }
            if (doing) return [doing.what + "s " + doing.device, false];
            if (caller.searches.size) return ["searches below " + Array.from(caller.searches.keys()).pop(), false];
            if (caller.number === 0) return [this.booted ? "has ended" : "boots", false];
            if (this.power !== null && this.power !== caller.number)
                return ["between commands; a power command waits for caller " + this.power, false];
            return ["between commands", false];
        }
    }

    function ok(event) { return event.reply === "ok"; }

    function refused(world, event) {
        if (ok(event)) return false;
        world.tell(() => "Nothing changed: the reply is " + event.reply + ".");
        return true;
    }

    function power(world, event, caller) {
        if (refused(world, event)) return;
        world.power = caller.number;
        caller.doing = { what: event.act === "suspend" ? "suspend" : "resume", device: event.device };
        world.tell(() => "Caller " + caller.number + " has the power turn.");
    }

    function sleep(world, event, asleep) {
        const device = world.devices.get(event.device);
        if (!device) return;
        device.asleep = asleep;
        world.tell(() => event.device + (asleep ? " is suspended." : " is awake again."), () => [event.device]);
    }

    World.acts = {
        found: (world, event, caller) => world.attach(event, caller),
        final: (world, event, caller) => {
            if (event.spot === undefined) world.tell(() => "The finalizer of " + event.parent + " had nothing to show.");
            else world.attach(event, caller);
        },
        scan: (world, event, caller) => {
            world.search(world.devices.get(event.device), caller, -1);
            world.tell(() => "The search below " + event.device + " is over.", () => [event.device]);
        },
        interrupts: (world) => world.tell(() => "Interrupts work from here on."),
        end: (world, event, caller) => {
            caller.ended = true;
            caller.doing = null;
            if (caller.number === 0) world.booted = true;
            world.tell(() => caller.number === 0 ? "The boot has ended." : "Caller " + caller.number + " has ended.");
        },
        open: (world, event, caller) => { if (!refused(world, event)) world.hold(event.device, caller, 1, event.sole === true); },
        close: (world, event, caller) => { if (!refused(world, event)) world.hold(event.device, caller, -1, false); },
        drop: (world, event, caller) => world.hold(event.device, caller, -1, false),
        io: (world, event, caller) => {
            if (event.reply !== "started") { refused(world, event); return; }
            caller.doing = { what: "transfer", device: event.device };
            world.tell(() => "A transfer to " + event.device + " began.", () => [event.device]);
        },
        done: (world, event, caller) => {
            caller.doing = null;
            world.tell(() => "The transfer to " + event.device + " ended: " + event.answer + ".", () => [event.device]);
        },
        detach: (world, event, caller) => { if (!refused(world, event)) world.condemn(event.device, caller); },
        free: (world, event, caller) => world.free(event.device, caller),
        rescan: (world, event, caller) => {
            if (refused(world, event)) return;
            world.search(world.devices.get(event.device), caller, 1);
            world.tell(() => event.device + " is searched again.", () => [event.device]);
        },
        suspend: power, resume: power, resumetree: power,
        sleep: (world, event) => sleep(world, event, true),
        wake: (world, event) => sleep(world, event, false),
        power: (world, event, caller) => {
            world.power = null;
            caller.doing = null;
            world.tell(() => "The power command ended: " + event.reply + ". The power turn is free.", () => [event.device]);
        },
        plug: (world, event) => { if (!refused(world, event)) world.tell(() => "Hardware is on the spot " + event.spot + "."); },
        unplug: (world, event, caller) => {
            if (refused(world, event)) return;
            world.tell(() => "The spot " + event.spot + " is empty.");
            if (world.onSpot.has(event.spot)) world.condemn(world.onSpot.get(event.spot), caller);
        },
        list: (world, event) => { if (event.reply === undefined) world.tell(() => event.names.length + " names were listed."); else refused(world, event); },
    };
    World.acts.tree = World.acts.list;

    // ---- one pass over the history: which events concern a device or a spot, and where a caller waits to free a device

    const concerned = new Map();
    const ofCaller = new Map();
    const waits = new Map();
    let world = new World();

    function note(key, index) {
        const list = concerned.get(key);
        if (list) { if (list[list.length - 1] !== index) list.push(index); } else concerned.set(key, [index]);
    }

    function look() {
        const open = new Map();
        world.isQuiet = true;
        events.forEach((event, index) => {
            if (!ofCaller.has(event.caller)) ofCaller.set(event.caller, []);
            ofCaller.get(event.caller).push(index);
            if (event.device) note(event.device, index);
            if (event.parent) note(event.parent, index);
            if (event.spot) note("spot " + event.spot, index);
            world.step();
            for (const caller of world.callers.values()) {
                const doing = caller.doing;
                const next = doing && doing.what === "detach" && doing.left[doing.left.length - 1];
                const stands = Boolean(next && next.held.size);
                if (stands && !open.has(caller.number)) open.set(caller.number, index);
                if (!stands && open.has(caller.number)) {
                    if (!waits.has(caller.number)) waits.set(caller.number, []);
                    waits.get(caller.number).push([open.get(caller.number), index]);
                    open.delete(caller.number);
                }
            }
        });
        for (const [number, from] of open) {
            if (!waits.has(number)) waits.set(number, []);
            waits.get(number).push([from, events.length - 1]);
        }
    }

    // A tree without a history is a world of its own.
    function standing() {
        for (const line of run.tree || []) {
            const device = {
                name: line.name, parent: line.parent, row: line.row, spot: "", serial: ++world.serial, children: [], asleep: line.asleep,
                condemner: line.condemned ? -1 : null, held: new Map(), sole: null, came: -1,
            };
            for (const it of line.held) { device.held.set(it.caller, it.times); if (it.sole) device.sole = it.caller; }
            world.devices.set(device.name, device);
            world.children(device.parent).push(device.name);
        }
    }

    // ---- the page

    const chosen = { caller: null, device: null, closed: new Set() };
    const shownRows = new Map();
    let order = [];
    let focusable = null;

    function node(tag, words, attributes) {
        const it = document.createElement(tag);
        if (words !== undefined && words !== "") it.textContent = words;
        for (const name in attributes || {}) it.setAttribute(name, attributes[name]);
        return it;
    }

    function link(words, action) {
        const it = node("button", words, { type: "button", class: "link" });
        it.addEventListener("click", action);
        return it;
    }

    function eventLink(index) { return link(index + 1 + ": " + text(events[index]), () => go(index)); }

    // The world after the event of this index; backwards from the beginning.
    function reach(index) {
        if (index < world.at) world = new World();
        world.isQuiet = true;
        while (world.at < index - 1) world.step();
        world.isQuiet = false;
        if (world.at < index) world.step();
    }

    function visible(names, level, list) {
        names.forEach((name, place) => {
            const device = world.devices.get(name);
            if (!device) return;
            list.push({ device: device, level: level, place: place + 1, of: names.length });
            if (!chosen.closed.has(name)) visible(device.children, level + 1, list);
        });
        return list;
    }

    // What is to be seen behind the name of a device: kinds and words.
    function badges(device) {
        const list = [];
        if (device.asleep) list.push(["asleep", "asleep"]);
        if (device.condemner !== null) list.push(["condemned", device.condemner < 0 ? "condemned" : "condemned by " + device.condemner]);
        if (device.held.size) list.push(["held", "held " + heldText(device)]);
        return list;
    }

    // Only what differs from before is set: most events change few of the rows.
    function fillRow(it, entry) {
        const device = entry.device;
        const line = lineOf(device);
        const was = it.was;
        if (was.line !== line || was.spot !== device.spot || was.level !== entry.level) {
            was.line = line;
            was.spot = device.spot;
            was.level = entry.level;
            it.title = line;
            it.style.setProperty("--level", entry.level);
            it.classList.toggle("asleep", device.asleep);
            it.classList.toggle("condemned", device.condemner !== null);
            const place = "row " + device.row + (device.spot ? " on " + device.spot : "");
            const list = badges(device);
            it.replaceChildren(node("b", device.name), node("span", " " + place), ...list.map(([kind, words]) => node("em", words, { class: kind })));
            it.setAttribute("aria-label", [device.name, place].concat(list.map(([, words]) => words)).join(", "));
        }
        put(it, "aria-level", entry.level + 1);
        put(it, "aria-posinset", entry.place);
        put(it, "aria-setsize", entry.of);
        put(it, "aria-expanded", device.children.length ? !chosen.closed.has(device.name) : null);
        put(it, "aria-selected", chosen.device === device.name);
    }

    function put(it, name, value) {
        if (it.was[name] === value) return;
        it.was[name] = value;
        if (value === null) it.removeAttribute(name); else it.setAttribute(name, String(value));
    }

    function showTree() {
        const tree = byId("tree");
        const entries = visible(world.tops, 0, []);
        const changed = new Set();
        for (const change of world.changes) for (const name of change.names) changed.add(name);
        const seen = new Set();
        let at = tree.firstElementChild;
        for (const entry of entries) {
            const key = entry.device.name;
            let it = shownRows.get(key);
            if (!it) {
                it = node("li", "", { role: "treeitem", tabindex: "-1" });
                it.dataset.name = key;
                it.was = {};
                shownRows.set(key, it);
            }
            fillRow(it, entry);
            if (it.was.changed !== changed.has(key)) it.classList.toggle("changed", it.was.changed = changed.has(key));
            if (it === at) at = at.nextElementSibling;
            else tree.insertBefore(it, at);
            seen.add(key);
        }
        for (const [key, it] of shownRows) if (!seen.has(key)) { it.remove(); shownRows.delete(key); }
        order = entries.map((entry) => entry.device.name);
        const focus = shownRows.get(chosen.device) || tree.firstElementChild;
        if (focus !== focusable) {
            if (focusable) focusable.tabIndex = -1;
            if (focus) focus.tabIndex = 0;
            focusable = focus;
        }
        byId("tree-count").textContent = world.devices.size + (world.devices.size === 1 ? " device" : " devices");
    }

    function showEvent() {
        const event = events[world.at];
        byId("event").textContent = event ? text(event) : "Nothing has happened yet.";
        byId("changes").replaceChildren(...(event ? world.changes : []).map((change) => node("li", change.words)));
        byId("slider").value = world.at + 1;
        byId("slider").setAttribute("aria-valuetext", "event " + (world.at + 1) + (event ? ": " + text(event) : ""));
        byId("number").value = world.at + 1;
    }

    function showCallers() {
        const now = events[world.at];
        const numbers = Array.from(ofCaller.keys()).sort((a, b) => a - b);
        byId("callers").replaceChildren(...numbers.map((number) => {
            const caller = world.callers.get(number) || { number: number, last: -1, doing: null, searches: new Map(), ended: false };
            const [words, isWaiting] = world.state(caller);
            const line = node("tr", "", now && now.caller === number ? { class: "now" } : {});
            line.append(node("th", number === 0 ? "0, the boot" : String(number), { scope: "row" }));
            line.append(node("td", caller.last < 0 ? "" : String(events[caller.last].command)));
            line.append(node("td", words, isWaiting ? { class: "waits" } : {}));
            const last = node("td");
            if (caller.last >= 0) last.append(eventLink(caller.last));
            line.append(last);
            return line;
        }));
    }

    // The list that a caller's choice leaves, and the place in it of the latest event that has happened.
    function stepList() {
        const list = chosen.caller === null ? null : ofCaller.get(chosen.caller) || [];
        if (!list) return [null, world.at];
        let low = 0, high = list.length;
        while (low < high) { const middle = (low + high) >> 1; if (list[middle] <= world.at) low = middle + 1; else high = middle; }
        return [list, low - 1];
    }

    function showEvents() {
        const [list, place] = stepList();
        const length = list ? list.length : events.length;
        const from = Math.max(0, Math.min(place - 8, length - 20));
        const lines = [];
        for (let n = from; n < Math.min(length, from + 20); n++) {
            const index = list ? list[n] : n;
            const button = node("button", text(events[index]), { type: "button" });
            if (index === world.at) button.setAttribute("aria-current", "true");
            button.addEventListener("click", () => go(index));
            const item = node("li");
            item.append(button);
            lines.push(item);
        }
        byId("events").replaceChildren(...lines);
    }

    function pair(list, name, value) {
        const place = node("dd");
        if (value instanceof Node) place.append(value); else place.textContent = value;
        list.append(node("dt", name), place);
    }

    function eventList(key) {
        const all = concerned.get(key) || [];
        const part = node("ol", "", { class: "plain" });
        let near = all.findIndex((index) => index >= world.at);
        if (near < 0) near = all.length;
        const from = Math.max(0, Math.min(near - 5, all.length - 12));
        for (const index of all.slice(from, from + 12)) { const item = node("li"); item.append(eventLink(index)); part.append(item); }
        return [node("p", all.length + (all.length === 1 ? " event" : " events") + " of it" + (all.length > 12 ? "; those nearest are:" : ":")), part];
    }

    function showDetail(kind, name) {
        chosen.kind = kind;
        chosen.name = name;
        const list = node("dl");
        const parts = [node("h3", kind === "row" ? "row " + name : name), list];
        if (kind === "device") {
            const device = world.devices.get(name);
            if (!device) pair(list, "state", "not attached now");
            else {
                pair(list, "parent", device.parent === "root" ? "root" : link(device.parent, () => choose(device.parent)));
                pair(list, "row", link(rowText(device.row), () => showDetail("row", device.row)));
                if (device.spot) pair(list, "spot", link(device.spot, () => showDetail("spot", device.spot)));
                pair(list, "children", String(device.children.length));
                pair(list, "held by", heldText(device) || "nobody");
                const by = world.searchers(name);
                if (by.length) pair(list, "searched by", by.join(", "));
                if (device.came >= 0) pair(list, "came with", eventLink(device.came));
            }
            parts.push(...eventList(name));
        } else if (kind === "spot") {
            const on = world.onSpot.get(name);
            pair(list, "device", on ? link(on, () => choose(on)) : "none");
            parts.push(...eventList("spot " + name));
        } else {
            pair(list, "row", rowText(name));
            const by = Array.from(world.devices.values()).filter((device) => device.row === name);
            const place = node("span");
            for (const device of by.slice(0, 40)) place.append(link(device.name, () => choose(device.name)), " ");
            pair(list, "devices", by.length ? place : "none now");
        }
        byId("detail").replaceChildren(...parts);
    }

    function choose(name) {
        for (let it = world.devices.get(name); it && it.parent !== "root"; it = world.devices.get(it.parent)) chosen.closed.delete(it.parent);
        chosen.device = name;
        showTree();
        showDetail("device", name);
        const it = shownRows.get(name);
        if (it) it.scrollIntoView({ block: "nearest" });
    }

    function found(wanted) {
        const list = node("ul");
        const parts = [node("h3", "Search"), list];
        let count = 0;
        for (const key of concerned.keys()) {
            const isSpot = key.startsWith("spot ");
            const name = isSpot ? key.slice(5) : key;
            if (name === "root" || !name.includes(wanted)) continue;
            if (++count > 50) continue;
            const item = node("li");
            const index = concerned.get(key)[0];
            item.append(link(name, () => { if (isSpot) showDetail("spot", name); else choose(name); }), isSpot ? " (spot)" : "",
                !isSpot && !world.devices.has(name) ? " (not attached now)" : "", ", first in ", eventLink(index));
            list.append(item);
        }
        if (!concerned.size)
            for (const name of world.devices.keys()) if (name.includes(wanted) && ++count <= 50) { const item = node("li"); item.append(link(name, () => choose(name))); list.append(item); }
        parts.push(node("p", count === 0 ? "Nothing has this name." : count > 50 ? "and " + (count - 50) + " more" : ""));
        byId("detail").replaceChildren(...parts);
        chosen.kind = null;
    }

    // ---- lanes

    const kinds = [
        ["come", "attached", ["found", "final"]], ["go", "detached", ["detach", "free", "unplug"]], ["hold", "references", ["open", "close", "drop"]],
        ["work", "transfers", ["io", "done"]], ["sleep", "power", ["suspend", "resume", "resumetree", "sleep", "wake", "power"]],
        ["other", "other", []],
    ];
    const kindOf = new Map();
    for (const [kind, , acts] of kinds) for (const act of acts) kindOf.set(act, kind);

    // What gets the focus must not be hidden by the header, which stays where it is.
    function keepBelowHeader() {
        const header = document.querySelector("header");
        document.documentElement.style.scrollPaddingTop = getComputedStyle(header).position === "sticky" ? header.offsetHeight + "px" : "";
    }

    function drawLanes() {
        const canvas = byId("lanes");
        const numbers = Array.from(ofCaller.keys()).sort((a, b) => a - b);
        const width = canvas.clientWidth || 800, lane = 14, height = Math.max(lane * numbers.length, 1);
        const scale = window.devicePixelRatio || 1;
        canvas.width = width * scale;
        canvas.height = height * scale;
        canvas.style.height = height + "px";
        const style = getComputedStyle(document.documentElement);
        const color = (name) => style.getPropertyValue("--" + name).trim();
        const pen = canvas.getContext("2d");
        pen.scale(scale, scale);
        pen.font = "10px system-ui, sans-serif";
        const left = 20, step = (width - left) / Math.max(events.length, 1), size = Math.max(1, Math.min(8, step - 0.5));
        const colors = new Map(kinds.map(([kind]) => [kind, color(kind)]));
        numbers.forEach((number, n) => {
            const list = ofCaller.get(number), top = n * lane;
            pen.fillStyle = color("soft");
            pen.fillText(String(number), 2, top + 10);
            pen.fillStyle = color("line");
            pen.fillRect(left + (list[0] + 0.5) * step, top + 6, Math.max(1, (list[list.length - 1] - list[0]) * step), 1);
            pen.fillStyle = color("wait");
            for (const [from, to] of waits.get(number) || []) pen.fillRect(left + (from + 0.5) * step, top + 5, Math.max(2, (to - from) * step), 3);
            for (const index of list) {
                pen.fillStyle = colors.get(kindOf.get(events[index].act) || "other");
                pen.fillRect(left + (index + 0.5) * step - size / 2, top + 2, size, 10);
            }
        });
        showCursor();
    }

    function showCursor() {
        const cursor = byId("cursor");
        cursor.hidden = world.at < 0;
        cursor.style.left = "calc(20px + (100% - 20px) * " + (world.at + 0.5) / Math.max(events.length, 1) + ")";
    }

    // ---- moving

    let isAsked = false;
    let wanted = 0;
    let addressTimer = 0;

    function show() {
        isAsked = false;
        reach(wanted);
        showTree();
        showEvent();
        showCallers();
        showEvents();
        showCursor();
        if (chosen.kind) showDetail(chosen.kind, chosen.name);
        clearTimeout(addressTimer);
        addressTimer = setTimeout(putAddress, 400);
    }

    // The address names the event, so that it can be kept or sent on; browsers limit how often it may change.
    function putAddress() {
        try { history.replaceState(null, "", "#event=" + (world.at + 1)); } catch (error) { /* not every place allows it */ }
    }

    function go(index) {
        wanted = Math.max(-1, Math.min(events.length - 1, index));
        if (isAsked) return;
        isAsked = true;
        const ask = () => { if (isAsked) show(); };
        // A window that is not seen draws no frames.
        requestAnimationFrame(ask);
        setTimeout(ask, 50);
    }

    function step(by) {
        const [list, place] = stepList();
        if (!list) { go((isAsked ? wanted : world.at) + by); return; }
        const next = place + by;
        if (by < 0 && list[place] !== undefined && list[place] < world.at) go(list[place]);
        else if (list[next] !== undefined) go(list[next]);
    }

    // The event before or after of the caller of this one.
    function stepSame(by) {
        const event = events[world.at];
        if (!event) { step(by); return; }
        const list = ofCaller.get(event.caller);
        const next = list[list.indexOf(world.at) + by];
        if (next !== undefined) go(next);
    }

    function chooseCaller(number) {
        if (number !== null && !ofCaller.has(number)) return;
        chosen.caller = number;
        byId("caller").value = number === null ? "" : String(number);
        showEvents();
    }

    function treeKey(event) {
        const name = event.target.dataset.name;
        const place = order.indexOf(name);
        const device = world.devices.get(name);
        let to = null;
        if (event.key === "ArrowDown") to = order[place + 1];
        else if (event.key === "ArrowUp") to = order[place - 1];
        else if (event.key === "ArrowRight" && device && device.children.length) {
            if (chosen.closed.delete(name)) showTree(); else to = device.children[0];
        } else if (event.key === "ArrowLeft" && device) {
            if (device.children.length && !chosen.closed.has(name)) { chosen.closed.add(name); showTree(); } else to = device.parent;
        } else if (event.key === "Enter" || event.key === " ") to = name;
        else return;
        event.preventDefault();
        event.stopPropagation();
        if (to && shownRows.has(to)) { choose(to); shownRows.get(to).focus(); }
    }

    function key(event) {
        if (event.ctrlKey || event.altKey || event.metaKey) return;
        const tag = event.target.tagName;
        if (event.target.dataset && event.target.dataset.name) { treeKey(event); if (event.defaultPrevented) return; }
        if (tag === "SELECT" || (tag === "INPUT" && event.target.id !== "slider")) return;
        if (tag === "INPUT" && /^(Arrow|Page|Home|End)/.test(event.key) && chosen.caller === null) return;
        const acts = {
            ArrowLeft: () => step(-1), ",": () => step(-1), ArrowRight: () => step(1), ".": () => step(1), "<": () => stepSame(-1), ">": () => stepSame(1),
            PageUp: () => go(world.at - 100), PageDown: () => go(world.at + 100), Home: () => go(-1), End: () => go(events.length - 1),
            "/": () => byId("search").focus(), a: () => chooseCaller(null),
        };
        if (/^[0-9]$/.test(event.key)) chooseCaller(Number(event.key));
        else if (acts[event.key]) acts[event.key]();
        else return;
        event.preventDefault();
    }

    function fromAddress() {
        const match = /event=(\d+)/.exec(location.hash);
        return match ? Math.min(events.length, Number(match[1])) - 1 : events.length - 1;
    }

    // Does what the page works out agree with the tree that the output has?
    function check() {
        if (!run.history || !run.tree) return;
        const lines = visible(world.tops, 0, []).map((entry) => entry.level + lineOf(entry.device));
        const wantedLines = run.tree.map((line) => line.depth + line.name + " at " + line.parent + " row " + line.row + (line.asleep ? " asleep" : "") +
            (line.condemned ? " condemned" : "") + (line.held.length ? " held " + line.held.map((it) =>
            it.caller + (it.times > 1 ? "*" + it.times : "") + (it.sole ? "!" : "")).join(" ") : ""));
        if (lines.join("\n") === wantedLines.join("\n")) return;
        byId("warning").hidden = false;
        byId("warning").textContent = "The tree of this output is not the one that its history leads to.";
    }

    function begin() {
        if (run.history) look(); else standing();
        check();
        byId("about").textContent = events.length + " events, " + rows.length + " rows";
        byId("count").textContent = events.length;
        byId("slider").max = events.length;
        byId("number").max = events.length;
        for (const number of Array.from(ofCaller.keys()).sort((a, b) => a - b))
            byId("caller").append(node("option", number === 0 ? "0, the boot" : String(number), { value: number }));
        byId("legend").replaceChildren(...kinds.concat([["wait", "waits for a reference"]]).map(([kind, words]) => {
            const it = node("span", words);
            it.style.setProperty("--color", "var(--" + kind + ")");
            return it;
        }));
        if (!run.history) for (const id of ["lanes-box", "legend"]) byId(id).hidden = true;
        byId("first").addEventListener("click", () => go(-1));
        byId("back").addEventListener("click", () => step(-1));
        byId("forward").addEventListener("click", () => step(1));
        byId("last").addEventListener("click", () => go(events.length - 1));
        byId("slider").addEventListener("input", (event) => go(Number(event.target.value) - 1));
        byId("number").addEventListener("change", (event) => go(Number(event.target.value) - 1));
        byId("caller").addEventListener("change", (event) => chooseCaller(event.target.value === "" ? null : Number(event.target.value)));
        byId("search").addEventListener("input", (event) => { if (event.target.value) found(event.target.value); });
        byId("look").addEventListener("change", (event) => {
            if (event.target.value) document.documentElement.dataset.look = event.target.value;
            else delete document.documentElement.dataset.look;
            drawLanes();
        });
        byId("tree").addEventListener("click", (event) => {
            const it = event.target.closest("li");
            if (it) { choose(it.dataset.name); it.focus(); }
        });
        byId("lanes").addEventListener("click", (event) => {
            const box = byId("lanes").getBoundingClientRect();
            go(Math.floor((event.clientX - box.left - 20) / (box.width - 20) * events.length));
        });
        document.addEventListener("keydown", key);
        window.addEventListener("resize", () => { drawLanes(); keepBelowHeader(); });
        window.addEventListener("hashchange", () => { if (fromAddress() !== world.at) go(fromAddress()); });
        window.matchMedia("(prefers-color-scheme: dark)").addEventListener("change", drawLanes);
        wanted = fromAddress();
        show();
        drawLanes();
        keepBelowHeader();
    }

    begin();
})();
