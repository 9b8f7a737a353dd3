// One date: asks as it is typed, and keeps the address.
import {offerCopy} from "./cite.js";
import {_} from "./messages.js";

const form = document.getElementById("question");
const answer = document.getElementById("answer");
// What is read aloud: one sentence of an answer, and not all of it at each pause in typing.
const announcement = document.getElementById("announcement");
const WAIT = 180;
let timer = 0;
let asking = null;
let current = questionOf((field) => field.defaultValue ?? chosenFirst(field));

// The question by the fields' words, in the form of an address.
function questionOf(word) {
    const members = new URLSearchParams();
    for (const field of form.elements) {
        if (field.name) members.set(field.name, word(field).trim());
    }
    return members.toString();
}

// What a list had chosen when the page came.
function chosenFirst(list) {
    return [...list.options].find((option) => option.defaultSelected)?.value ?? "";
}

// An answer that is on its way is to other words than those that are typed now.
function later() {
    asking?.abort();
    clearTimeout(timer);
    timer = setTimeout(ask, WAIT);
}

async function ask() {
    asking?.abort();
    const question = questionOf((field) => field.value);
    if (question === current) return;
    asking = new AbortController();
    try {
        const reply = await fetch(`${form.dataset.answer}?${question}`,
            {signal: asking.signal, headers: {Accept: "application/json"}});
        const body = await reply.json();
        if (reply.ok) {
            show(body, question);
        } else {
            showProblem(body.message, question);
        }
    } catch (why) {
        if (why.name === "AbortError") return;
        showProblem(_("The page’s server doesn’t answer. Try again."), question);
    }
}

function show(reply, question) {
    current = question;
    answer.innerHTML = reply.html;
    announcement.textContent = reply.announcement ?? "";
    document.title = reply.title;
    history.replaceState(null, "", reply.address);
    for (const link of document.querySelectorAll("[hreflang]")) {
        const address = new URL(reply.address, location.href);
        address.searchParams.set("lang", link.hreflang);
        link.href = address;
    }
    offerCopy();
}

function showProblem(sentence, question) {
    current = null;
    document.title = form.dataset.title;
    history.replaceState(null, "", `${form.action}?${question}`);
    const line = document.createElement("p");
    line.className = "reason";
    line.textContent = sentence;
    answer.replaceChildren(line);
    announcement.textContent = sentence;
}

form.addEventListener("input", later);
form.addEventListener("change", later);
// A page that comes back from the browser's memory may have other words in its fields.
window.addEventListener("pageshow", ask);
