'use strict';
// The page's words in the language that is chosen. words.csv has them: a column a language, of which English is whole.

const { languages: LANGUAGES, words: WORDS } = JSON.parse(document.getElementById('words').textContent);
let language = (navigator.languages ?? []).map(name => name.slice(0, 2)).find(name => name in LANGUAGES) ?? 'en';

/** The words of a key, with values in the places that have their names. A value may be a key with values of its own. */
function say(key, values = {}) {
  const text = WORDS[key]?.[language] || WORDS[key]?.en || key;
  return text.replace(/\{(\w+)\}/g, (_, name) => {
    const value = values[name];
    return typeof value === 'object' && value !== null ? say(value.key, value.values) : String(value ?? '');
  });
}

/** What is said of a refusal, a line each: that of a code has its meaning, and its cause and remedy behind it. */
function linesOf(sentences) {
  const lines = [];
  for (const { key, values } of sentences) {
    if (key === 'plain') lines.push(values.text);
    else if (key !== 'code') lines.push(say(key, values));
    else {
      const { code } = values, cause = say(`${code} cause`);
      lines.push(say('code', { code, meaning: say(`${code} meaning`) }));
      if (!WORDS[`${code} cause`]?.en.startsWith('see code')) lines.push(say('cause', { cause }), say('remedy', { remedy: say(`${code} remedy`) }));
    }
  }
  return lines;
}

/** Puts words into all that has a key. */
function speak() {
  document.documentElement.lang = language;
  document.title = say('title');
  for (const element of document.querySelectorAll('[data-say]')) element.textContent = say(element.dataset.say);
  for (const element of document.querySelectorAll('[data-say-label]')) {
    element.ariaLabel = say(element.dataset.sayLabel);
    if ('placeholder' in element) element.placeholder = element.ariaLabel;
  }
}

/** A choice of languages that calls when it changes. */
function offerLanguages(select, change) {
  for (const [name, words] of Object.entries(LANGUAGES)) select.append(new Option(words, name, false, name === language));
  select.addEventListener('change', () => {
    language = select.value;
    speak();
    change();
  });
}
