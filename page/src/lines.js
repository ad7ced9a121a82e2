// The line of an error in a definition: where the word of the engine first appears if the definition is read from its beginning.

// Where a value of TOML ends: at the end of a line, outside of brackets and texts.
function end_of_value(text, start) {
  let depth = 0, place = start;
  while (place < text.length) {
    const letter = text[place], quote = /^("""|'''|"|')/.exec(text.slice(place, place + 3))?.[0];
    if (letter === '\n' && depth <= 0) return place;
    if (letter === '#') {
      while (place < text.length && text[place] !== '\n') place++;
      continue;
    }
    if (quote) {
      for (place += quote.length; place < text.length && !text.startsWith(quote, place); place++) {
        if (quote[0] === '"' && text[place] === '\\') place++;
      }
      place += quote.length;
      continue;
    }
    depth += '[{'.includes(letter) ? 1 : ']}'.includes(letter) ? -1 : 0;
    place++;
  }
  return place;
}

// The statements of a text that is TOML: tables and keys, each with its line, from 1, and its text.
function statements_of(text) {
  const found = [];
  for (let place = 0; place < text.length;) {
    const end_of_line = text.indexOf('\n', place) < 0 ? text.length : text.indexOf('\n', place);
    const rest = text.slice(place, end_of_line).trim(), is_table = rest.startsWith('[');
    const is_empty = rest === '' || rest.startsWith('#');
    const end = is_empty || is_table ? end_of_line : end_of_value(text, place);
    if (!is_empty) {
      const line = text.slice(0, place).split('\n').length, [, name] = is_table ? [, ''] : /^\s*["']?([\w-]*)/.exec(text.slice(place));
      found.push({ line, is_table, name, text: text.slice(place, end) });
    }
    place = end + 1;
  }
  return found;
}

// The groups of statements that are read one after the other: for the words of names each table with its name, else each key. The other
// statements are always read, or never: without them, or with them, another error would come first.
function groups_of(statements, word) {
  const is_rest = it => it.is_table || it.name === 'name' || it.name === 'format';
  if (!['bad-name', 'double-name', 'missing-key', 'too-many-steps'].includes(word)) {
    return { always: statements.filter(is_rest), groups: statements.filter(it => !is_rest(it)).map(it => [it]) };
  }
  const groups = [[]];
  for (const it of statements.filter(it => it.is_table || it.name === 'name' || it.name === 'step')) {
    if (it.is_table) groups.push([]);
    groups.at(-1).push(it);
  }
  return { always: statements.filter(it => it.name === 'format'), groups };
}

// The line of the first statement with which the engine says this word, or null if that cannot be found. `word_of` asks the engine for its
// word of a text.
async function line_of_word(text, word, word_of) {
  const statements = statements_of(text), { always, groups } = groups_of(statements, word);
  if (word === 'bad-format') return statements.find(it => it.name === 'format')?.line ?? 1;
  const is_at = async count => {
    const read = new Set([...always, ...groups.slice(0, count).flat()]);
    return await word_of(statements.filter(it => read.has(it)).map(it => it.text).join('\n') + '\n') === word;
  };
  let good = 0, bad = groups.length;
  if (!bad || !await is_at(bad)) return null;
  while (bad - good > 1) {
    const middle = (good + bad) >> 1;
    if (await is_at(middle)) bad = middle; else good = middle;
  }
  const found = groups[bad - 1];
  return (found.find(it => it.name === 'name') ?? found[0])?.line ?? 1;
}
