"use strict";
// What a TextMate grammar makes of texts, as editors do it: line by line, with a stack of rules. It knows what the
// grammar of this repository uses: `match`, `begin` and `end` with captures, `include`, `name` and `patterns`.
//
//     node tokens.js GRAMMAR FILE..
//
// prints for each file a line of JSON: for each line of it a list of [start, end, scopes].

const fs = require("fs");

class Tokenizer {
  constructor(grammar) {
    this.grammar = grammar;
    this.compiled = new Map();
  }

  /** The tokens of each line of a text. */
  lines(text) {
    let stack = [{ patterns: this.grammar.patterns, scopes: [this.grammar.scopeName] }];
    return text.split("\n").map((line) => {
      const found = [];
      stack = this.line(line.replace(/\r$/, ""), stack, found);
      return found.filter(([start, end]) => end > start);
    });
  }

  line(line, stack, found) {
    let place = 0;
    const turns = 4 * line.length + 40;
    for (let turn = 0; ; turn++) {
      if (turn > turns) throw new Error(`a line never ends: ${line}`);
      const top = stack[stack.length - 1];
      const best = this.next(line, place, top);
      if (!best) {
        found.push([place, line.length, top.scopes]);
        return stack;
      }
      const { rule, match, isEnd } = best;
      found.push([place, match.index, top.scopes]);
      place = match.index + match[0].length;
      if (isEnd) {
        this.captured(match, rule.endCaptures, top.scopes, found);
        stack = stack.slice(0, -1);
      } else if (rule.begin) {
        const scopes = this.with(top.scopes, rule.name);
        this.captured(match, rule.beginCaptures, scopes, found);
        stack = [...stack, { patterns: rule.patterns || [], scopes: this.with(scopes, rule.contentName), rule }];
      } else {
        this.captured(match, rule.captures, this.with(top.scopes, rule.name), found);
      }
      if (place >= line.length && !match[0].length) return stack;
    }
  }

  with(scopes, name) {
    return name ? [...scopes, name] : scopes;
  }

  /** What matches first: the end of the rule, or one of its patterns, of several at one place the first. */
  next(line, place, top) {
    let best = null;
    const take = (rule, source, isEnd) => {
      const match = this.match(source, line, place);
      if (!match || (!match[0].length && !isEnd)) return;
      if (!best || match.index < best.match.index) best = { rule, match, isEnd };
    };
    if (top.rule) take(top.rule, top.rule.end, true);
    for (const rule of this.rules(top.patterns)) take(rule, rule.begin || rule.match, false);
    return best;
  }

  match(source, line, place) {
    if (!this.compiled.has(source)) this.compiled.set(source, new RegExp(source, "g"));
    const regex = this.compiled.get(source);
    regex.lastIndex = place;
    return regex.exec(line);
  }

  *rules(patterns) {
    for (const it of patterns) {
      if (!it.include) yield* it.match || it.begin ? [it] : this.rules(it.patterns || []);
      else if (it.include === "$self") yield* this.rules(this.grammar.patterns);
      else {
        const rule = this.grammar.repository[it.include.slice(1)];
        if (!rule) throw new Error(`no rule ${it.include}`);
        yield* rule.match || rule.begin ? [rule] : this.rules(rule.patterns);
      }
    }
  }

  captured(match, captures, scopes, found) {
    const end = match.index + match[0].length;
    let place = match.index;
    const whole = captures && captures[0] ? this.with(scopes, captures[0].name) : scopes;
    for (let number = 1; number < match.length; number++) {
      const name = captures && captures[number] && captures[number].name;
      if (!name || !match[number]) continue;
      const start = match[0].indexOf(match[number], place - match.index) + match.index;
      found.push([place, start, whole], [start, start + match[number].length, this.with(whole, name)]);
      place = start + match[number].length;
    }
    found.push([place, end, whole]);
  }
}

const [grammar, ...files] = process.argv.slice(2);
const tokenizer = new Tokenizer(JSON.parse(fs.readFileSync(grammar, "utf8")));
for (const file of files) console.log(JSON.stringify(tokenizer.lines(fs.readFileSync(file, "utf8"))));
