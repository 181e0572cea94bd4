"use strict";
// The simulator: it takes steps by the tables that the library handed out, which stand in the page as data, and shows the play.
// Nothing is solved here. All that is shown is looked up in the data, and counted over the steps so far.

const data = JSON.parse(document.getElementById("data").textContent);
const i = data.inputs.length;
const o = data.outputs.length;

// The steps so far, and the number of what the reader has set: an input number on "can", an output number on "cannot".
let steps = [];
let chosen = 0;

// The element with an id.
function at(id) {
    return document.getElementById(id);
}

// The last step, if there is one.
function last() {
    return steps[steps.length - 1];
}

// The state that the play is in.
function here() {
    return steps.length ? last().state : 0;
}

// Whether the play is over: a goal was entered.
function over() {
    return steps.length > 0 && last().kept;
}

// Takes a step: one side's number is the reader's, the other's stands in the winner's table. After a goal its button is disabled.
function step() {
    const from = here();
    const input = data.can ? chosen : data.outside[from];
    const output = data.can ? data.station[(from << i) + input] : chosen;
    const state = data.moves[(from << (i + o)) + input + (output << i)];
    steps.push({ from, input, output, state, met: data.meets[input], kept: data.marks[state] === 1 });
    show(lastInWords() + nextInWords());
}

// Takes the last step back; what the reader had set in it is set again.
function undo() {
    const undone = steps.pop();
    if (!undone) return;
    chosen = data.can ? undone.input : undone.output;
    show(`Step ${steps.length + 1} is taken back.${nextInWords()}`);
}

// Begins again.
function restart() {
    steps = [];
    chosen = 0;
    show("At the start." + nextInWords());
}

// Sets a wire of the reader's, or clears it.
function toggle(wire) {
    chosen ^= 1 << wire;
    showToggles();
}

// How many steps the page's bound is about: on "can" those with the condition, on "cannot" those without it; in all or in a row.
function count() {
    const counted = steps.map(({ met }) => met === data.can);
    const inAll = data.can === (data.mode === "fair");
    return inAll ? counted.filter(Boolean).length : counted.length - 1 - counted.lastIndexOf(false);
}

// The names of the wires that a number sets.
function on(wires, number) {
    return wires.filter((name, wire) => (number >> wire) & 1).join(", ") || "none";
}

// A truth value in words.
function yes(value) {
    return value ? "yes" : "no";
}

// The last step in a sentence.
function lastInWords() {
    const { input, output, met, state } = last();
    const set = `inputs on: ${on(data.inputs, input)}; commands on: ${on(data.outputs, output)}`;
    const end = over() ? " The play is over: Undo or Restart." : "";
    return `Step ${steps.length}: ${set}; condition held: ${yes(met)}; state after: ${state}.${end}`;
}

// On "cannot", what the outside sets next.
function nextInWords() {
    return data.can ? "" : ` Inputs on in step ${steps.length + 1}: ${on(data.inputs, data.outside[here()])}.`;
}

// That the rule is kept, once it is.
function keptInWords() {
    if (!over()) return "";
    return `Step ${steps.length}: the rule is kept${data.goal && ": " + data.goal}`;
}

// The steps so far as rows of the table.
function rows() {
    return steps.map(({ input, output, met, state, kept }, index) => [
        String(index + 1), on(data.inputs, input), on(data.outputs, output), yes(met), String(state), yes(kept),
    ]);
}

// The steps so far as text, in columns.
function asText() {
    const head = ["Step", "Inputs on", "Commands on", "Condition held", "State after", "Rule kept"];
    const lines = [head, ...rows()];
    const widths = head.map((_, column) => Math.max(...lines.map((line) => line[column].length)));
    const text = lines.map((line) => line.map((cell, column) => cell.padEnd(widths[column])).join("  ").trimEnd());
    return [document.title, "", ...text, "", keptInWords()].join("\n").trimEnd() + "\n";
}

// Shows where the play stands, with a sentence on what has just been done.
function show(news) {
    at("play-state").textContent = here();
    at("play-condition").textContent = steps.length ? (last().met ? "held" : "did not hold") : "no step yet";
    at("play-count").textContent = count();
    if (data.can) at("play-rule").textContent = over() ? "kept in step " + steps.length : "not kept yet";
    at("play-news").textContent = news;
    at("play-kept").textContent = keptInWords();
    at("play-text").value = asText();
    for (const number of document.querySelectorAll("#play-controls .coming")) number.textContent = steps.length + 1;
    showToggles();
    showLamps();
    showRows();
    showPicture();
    at("do-step").disabled = over();
    at("do-undo").disabled = steps.length === 0;
    if (document.activeElement && document.activeElement.disabled) at("play-outcome").focus();
}

// Shows a wire as on or off.
function showWire(element, value) {
    element.classList.toggle("on", value);
    element.querySelector(".value").textContent = value ? "on" : "off";
}

// Shows what the reader has set.
function showToggles() {
    document.querySelectorAll("#play-controls .toggle").forEach((button, wire) => {
        const value = ((chosen >> wire) & 1) === 1;
        button.setAttribute("aria-pressed", value);
        showWire(button, value);
    });
}

// Shows what the table has: on "can" the last step's commands, on "cannot" the coming step's inputs.
function showLamps() {
    const number = data.can ? (steps.length ? last().output : 0) : data.outside[here()];
    const lamps = document.querySelectorAll("#play-controls .lamp");
    lamps.forEach((lamp, wire) => showWire(lamp, ((number >> wire) & 1) === 1));
    if (data.can) at("play-lamps-step").textContent = steps.length ? "step " + steps.length : "no step yet";
}

// Shows the steps so far.
function showRows() {
    at("play-rows").replaceChildren(...rows().map((cells) => {
        const row = document.createElement("tr");
        for (const cell of cells) row.insertCell().textContent = cell;
        return row;
    }));
    at("play-box").scrollTop = at("play-box").scrollHeight;
}

// Highlights the state and the last move in the picture, where there is one.
function showPicture() {
    highlight("here", "state-" + here());
    highlight("taken", steps.length ? "move-" + last().from + "-" + last().state : "");
}

// Gives a class to one element of the picture and takes it from all others.
function highlight(kind, id) {
    for (const old of document.querySelectorAll("#picture ." + kind)) old.classList.remove(kind);
    if (at("picture") && at(id)) at(id).classList.add(kind);
}

// Copies the text; where the browser does not allow it, the text is selected, so that it can be copied by hand.
async function copy() {
    try {
        await navigator.clipboard.writeText(at("play-text").value);
        at("play-news").textContent = "The steps are copied as text.";
    } catch {
        at("play-text").select();
        at("play-text").focus();
        at("play-news").textContent = "The text is selected, to be copied with Ctrl+C.";
    }
}

// The button that a key presses.
function buttonOf(key) {
    const buttons = { enter: "do-step", backspace: "do-undo", u: "do-undo", r: "do-restart", c: "do-copy" };
    return at(/^[1-4]$/.test(key) ? "toggle-" + (key - 1) : buttons[key.toLowerCase()]);
}

// Presses a button by a key, unless the key is meant for something else.
function press(event) {
    if (event.ctrlKey || event.altKey || event.metaKey || event.shiftKey || event.repeat || event.isComposing) return;
    if (event.target.closest("textarea, input, select")) return;
    if (event.key === "Enter" && event.target.closest("button:not(.toggle)")) return;
    const button = buttonOf(event.key);
    if (!button) return;
    event.preventDefault();
    button.click();
}

// Makes the controls work.
function start() {
    const actions = { "do-step": step, "do-undo": undo, "do-restart": restart, "do-copy": copy };
    for (const [id, action] of Object.entries(actions)) at(id).addEventListener("click", action);
    document.querySelectorAll("#play-controls .toggle").forEach((button, wire) => {
        button.addEventListener("click", () => toggle(wire));
    });
    document.addEventListener("keydown", press);
    at("play-controls").hidden = false;
    restart();
}

start();
