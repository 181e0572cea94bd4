"use strict";
// The driver: works the page by its own controls, as the plan says, and records after each action what the page shows.

// The text of an element.
function textOf(id) {
    return document.getElementById(id).textContent;
}

// The ids of all elements that match.
function idsOf(selector) {
    return Array.from(document.querySelectorAll(selector), (element) => element.id).join(" ");
}

// One character for each wire: what its class, its word and, for a button, its attribute agree on, or a question mark.
function wiresOf(selector) {
    return Array.from(document.querySelectorAll(selector), (element) => {
        const says = [element.classList.contains("on"), element.querySelector(".value").textContent === "on"];
        if (element.hasAttribute("aria-pressed")) says.push(element.getAttribute("aria-pressed") === "true");
        return says.every((value) => value === says[0]) ? Number(says[0]) : "?";
    }).join("");
}

// The steps as text without the columns' blanks; the first line must be the page's title.
function textLines() {
    const [title, blank, ...lines] = document.getElementById("play-text").value.split("\n");
    if (title !== document.title || blank !== "") return "no title";
    return lines.map((line) => line.split(/ {2,}/).join("|")).join(";");
}

// All that the page shows, in one line.
function record() {
    const rows = Array.from(document.querySelectorAll("#play-rows tr"), (row) =>
        Array.from(row.cells, (cell) => cell.textContent).join("|"));
    const shown = {
        state: textOf("play-state"),
        coming: Array.from(document.querySelectorAll(".coming"), (number) => number.textContent).join(" "),
        lampsStep: document.getElementById("play-lamps-step")?.textContent ?? "",
        toggles: wiresOf("#play-controls .toggle"),
        lamps: wiresOf("#play-controls .lamp"),
        condition: textOf("play-condition"),
        count: document.getElementById("play-count").parentElement.textContent,
        rule: textOf("play-rule"),
        news: textOf("play-news"),
        kept: textOf("play-kept"),
        disabled: idsOf("#play-controls button:disabled"),
        focus: document.activeElement.id,
        here: idsOf(".here"),
        taken: idsOf(".taken"),
        rows: rows.join(";"),
        text: textLines(),
    };
    return Object.entries(shown).map(([name, value]) => name + "=" + value).join("\t");
}

// Does one action: KIND:WHAT.
function act(action) {
    const [kind, what] = action.split(":");
    const onto = { field: "play-text", button: "do-undo", toggle: "toggle-0" }[kind];
    if (kind === "click") {
        document.getElementById(what).focus();
        return document.getElementById(what).click();
    }
    const held = kind === "held" ? { ctrlKey: true } : {};
    const event = new KeyboardEvent("keydown", { key: what, bubbles: true, cancelable: true, ...held });
    (document.getElementById(onto) ?? document.body).dispatchEvent(event);
}

// Presses Copy with a clipboard that does what is said, and tells what came of it.
async function copied(clipboard) {
    const field = document.getElementById("play-text");
    Object.defineProperty(navigator, "clipboard", { value: clipboard, configurable: true });
    document.getElementById("do-copy").click();
    await new Promise((resolve) => setTimeout(resolve, 20));
    const all = field.selectionStart === 0 && field.selectionEnd === field.value.length;
    const selected = document.activeElement === field && all;
    field.blur();
    field.setSelectionRange(0, 0);
    return (selected ? "selected" : "not selected") + ": " + textOf("play-news");
}

// Follows the plan and leaves the record in the page.
async function drive() {
    const lines = [];
    for (const action of JSON.parse(textOf("plan"))) {
        act(action);
        lines.push(record());
    }
    let taken = "";
    lines.push(await copied({ writeText: async (text) => { taken = text; } }));
    const same = taken === document.getElementById("play-text").value;
    lines.push(same ? "the text was copied" : "another text was copied");
    lines.push(await copied({ writeText: () => Promise.reject(new Error("not allowed")) }));
    lines.push(await copied(undefined));
    lines.push("faults: " + faults.join(" / "));
    const pre = document.createElement("pre");
    pre.id = "record";
    pre.textContent = lines.join("\n");
    document.body.append(pre);
}

drive();
