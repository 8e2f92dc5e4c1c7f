// Typed into a page by tools/test.sh: keys, and the number of the event that each leads to. The title says what came of it.
(async function () {
    const frame = () => new Promise((done) => setTimeout(done, 80));
    const press = (key) => (document.activeElement || document.body).dispatchEvent(new KeyboardEvent("keydown", { key: key, bubbles: true, cancelable: true }));
    const number = () => Number(document.getElementById("number").value);
    const wrong = [];
    const total = Number(document.getElementById("count").textContent);
    // In the history of examples/outputs/detach.play the boot has 18 events; then come 1.1 2.1 2.1 1.2 1.2 1.3 1.4 2.1 2.1 2.1 1.5 2.2.
    for (const [key, to] of [["Home", 0], [".", 1], ["ArrowRight", 2], [",", 1], ["ArrowLeft", 0], ["End", total], ["PageUp", 0], ["PageDown", total],
        ["<", total - 2], ["Home", 0], ["2", 0], [".", 20], [".", 21], [".", 26], [",", 21], ["a", 21], [".", 22], ["1", 22], [".", 23], [">", 24], ["a", 24]]) {
        press(key);
        await frame();
        if (number() !== to) wrong.push(key + " leads to " + number() + ", not " + to);
    }
    document.querySelector("#tree li[tabindex='0']").focus();
    press("ArrowDown");
    const second = document.activeElement.dataset.name;
    if (second !== "pci0") wrong.push("down leads to " + second);
    const rows = () => document.querySelectorAll("#tree li").length;
    const before = rows();
    press("ArrowLeft");
    if (rows() >= before || document.activeElement.getAttribute("aria-expanded") !== "false") wrong.push("left does not close");
    press("ArrowRight");
    if (rows() !== before) wrong.push("right does not open");
    press("Enter");
    if (!/came with/.test(document.getElementById("detail").textContent)) wrong.push("no details: " + document.getElementById("detail").textContent);
    const search = document.getElementById("search");
    search.value = "atabus";
    search.dispatchEvent(new Event("input", { bubbles: true }));
    if (!/atabus0.*atabus1/.test(document.getElementById("detail").textContent)) wrong.push("search");
    document.title = wrong.length ? "wrong: " + wrong.join("; ") : "all keys as wanted";
})();
