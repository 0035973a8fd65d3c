// Makes a sheet (docs/01-scope.md) from a file of JavaScript or TypeScript. It stands in for the Rust exporter over swc's parse, and uses the
// parser of TypeScript instead; run it by tools/export.
//   export.js FILE [SHEET]             one sheet, to the file SHEET or to standard output
//   export.js --batch SHEETS KINDS     a sheet for each file named on standard input: a batch, and a line with each sheet's media
//   export.js --each FOLDER            the same, each sheet in a file of its own: that of the first line is FOLDER/1.sheet
// What a sheet cannot express, or this parser cannot read, is refused with a line on standard error; then the status is 1 (in a batch, the file
// is passed over and counted).
//
// - A byte order mark is taken away, as deno_ast does before it parses.
// - Comments are led and trailed as by swc's lexer: a comment on the line of the token before it trails that token if the token can have one
//   (a line comment: any but a binary operator; a block comment: a name, a literal, `;`, `{` or `}`, or if `;` comes next); any other leads the
//   token behind it. Behind the last token they trail it. With no token and no shebang they lead the end of the source, which is then the program.
// - The tree is flattened: of what is no dependency only the dependencies inside it are left, as children of the next node above. Arguments
//   of calls stand in full.
// - HTML-like comments of a script (`<!--` anywhere, `-->` where only white space and comments stand before it on its line) are kept; the parser reads
//   them as operators, so they are blanked and it parses again. A module has none: there they stay operators.
// - `with` attributes and the phases of imports are newer than the parser: the exporter reads them itself, blanks them and parses again.
'use strict';
const fs = require('fs');
let ts;
try {
  ts = require('typescript');
} catch {
  console.error('export: the module typescript is absent (Debian: node-typescript)');
  process.exit(3);
}
const K = ts.SyntaxKind;

class Refused extends Error {}
const refuse = (message) => {
  throw new Refused(message);
};

const MEDIA = ['JavaScript', 'Jsx', 'Mjs', 'Cjs', 'TypeScript', 'Mts', 'Cts', 'Dts', 'Dmts', 'Dcts', 'Tsx'];
const ENDINGS = [
  ['.d.ts', 7], ['.d.mts', 8], ['.d.cts', 9], ['.js', 0], ['.jsx', 1], ['.mjs', 2], ['.cjs', 3], ['.ts', 4], ['.mts', 5], ['.cts', 6], ['.tsx', 10],
];
const LIMITS = { sheet: 65536, source: 32768, text: 4096, comments: 1024, groups: 1024, depth: 64, properties: 64 };

// ---- bytes ----

class Writer {
  constructor() {
    this.bytes = [];
  }
  byte(b) {
    this.bytes.push(b);
  }
  flag(b) {
    this.byte(b ? 1 : 0);
  }
  number(n) {
    for (; n >= 128; n = Math.floor(n / 128)) this.byte((n % 128) | 128);
    this.byte(n);
  }
  text(s, limit = LIMITS.text) {
    const bytes = wtf8(s);
    if (bytes.length > limit) refuse(`a text has ${bytes.length} bytes, more than ${limit}`);
    this.number(bytes.length);
    for (const b of bytes) this.byte(b);
  }
  span(s) {
    this.number(s.start);
    this.number(s.end);
  }
}

// WTF-8: like UTF-8, and a lone surrogate in three bytes
function wtf8(s) {
  const out = [];
  for (const ch of s) {
    const c = ch.codePointAt(0);
    if (c < 0x80) out.push(c);
    else if (c < 0x800) out.push(0xc0 | (c >> 6), 0x80 | (c & 63));
    else if (c < 0x10000) out.push(0xe0 | (c >> 12), 0x80 | ((c >> 6) & 63), 0x80 | (c & 63));
    else out.push(0xf0 | (c >> 18), 0x80 | ((c >> 12) & 63), 0x80 | ((c >> 6) & 63), 0x80 | (c & 63));
  }
  return out;
}

// the byte offset of each index of a text
function byteOffsets(text) {
  const offsets = new Uint32Array(text.length + 1);
  let at = 0;
  for (let i = 0; i < text.length; ) {
    const c = text.codePointAt(i);
    const units = c > 0xffff ? 2 : 1;
    for (let k = 0; k < units; k++) offsets[i + k] = at;
    at += c < 0x80 ? 1 : c < 0x800 ? 2 : c < 0x10000 ? 3 : 4;
    i += units;
  }
  offsets[text.length] = at;
  return offsets;
}

// ---- parsing ----

const blank = (text, from, to) => text.slice(0, from) + text.slice(from, to).replace(/[^\r\n\u2028\u2029]/g, ' ') + text.slice(to);

// The source file, and what was read beside it: the object behind `with` by the end of the text in front of it, the phase by the start of `import`,
// the HTML-like comments by their start. A script may have these: what is a module without them is parsed as one.
function parse(name, text) {
  let script;
  try {
    script = parseAs(name, text, true);
  } catch (e) {
    if (!(e instanceof Refused)) throw e;
  }
  return script && (script.html.size === 0 || isScript(script.file)) ? script : parseAs(name, text, false);
}

// the first HTML-like comment that a token of the parse begins
function htmlComment(file, text) {
  for (const { start } of tokensOf(file)) {
    const opens = text.startsWith('<!--', start);
    if (!opens && !text.startsWith('-->', start)) continue;
    const front = text.slice(0, start).replace(/\/\*[^]*?\*\//g, (c) => c.replace(/[^\r\n\u2028\u2029]/g, ' '));
    if (!opens && !/(^|[\r\n\u2028\u2029])\s*$/.test(front)) continue;
    let end = start;
    while (end < text.length && !isBreak(text[end])) end++;
    return { kind: opens ? 2 : 3, start, end };
  }
  return undefined;
}

function parseAs(name, text, asScript) {
  const script = /\.[cm]?ts$/.test(name) ? ts.ScriptKind.TS : name.endsWith('.tsx') ? ts.ScriptKind.TSX : ts.ScriptKind.JSX;
  const objects = new Map();
  const phases = new Map();
  const html = new Map();
  let masked = text;
  for (;;) {
    const file = ts.createSourceFile(name, masked, ts.ScriptTarget.Latest, true, script);
    const comment = asScript && htmlComment(file, masked);
    if (comment) {
      html.set(comment.start, comment);
      masked = blank(masked, comment.start, comment.end);
      continue;
    }
    if (file.parseDiagnostics.length === 0) return { file, objects, phases, html };
    const next = mask(file, masked, text, objects, phases);
    if (next === masked) {
      const d = file.parseDiagnostics[0];
      const { line, character } = file.getLineAndCharacterOfPosition(d.start);
      refuse(`${line + 1}:${character + 1}: ${ts.flattenDiagnosticMessageText(d.messageText, ' ')}`);
    }
    masked = next;
  }
}

function mask(file, masked, text, objects, phases) {
  // the tokens from a place on, one by one
  const tokensFrom = (at) => {
    const scanner = ts.createScanner(ts.ScriptTarget.Latest, true, ts.LanguageVariant.Standard, masked, undefined, at);
    return () => {
      const kind = scanner.scan();
      return { kind, text: scanner.getTokenText(), start: scanner.getTokenPos(), end: scanner.getTextPos() };
    };
  };
  const objectAt = (at) => {
    const front = ' '.repeat(at - 1) + '(';
    const inner = ts.createSourceFile('object.ts', front + masked.slice(at), ts.ScriptTarget.Latest, true, ts.ScriptKind.TS);
    // what follows it may be read as more of the same expression: the object is leftmost
    let found = inner.statements[0];
    while (found && found.kind !== K.ObjectLiteralExpression) found = found.left || found.expression || found.tag || found.condition;
    return found;
  };
  const visit = (node) => {
    if ((node.kind === K.ImportDeclaration || node.kind === K.ExportDeclaration) && node.moduleSpecifier) {
      const next = tokensFrom(node.moduleSpecifier.end);
      const word = next();
      const brace = next();
      if (word.kind === K.WithKeyword && brace.kind === K.OpenBraceToken) {
        const object = objectAt(brace.start);
        if (object) {
          objects.set(node.moduleSpecifier.end, object);
          return blank(masked, word.start, object.end);
        }
      }
    }
    if (node.kind === K.ImportType && node.argument.literal) {
      const next = tokensFrom(node.argument.end);
      const tokens = [next(), next(), next(), next(), next()];
      const wanted = [K.CommaToken, K.OpenBraceToken, K.WithKeyword, K.ColonToken, K.OpenBraceToken];
      if (wanted.every((kind, i) => tokens[i].kind === kind)) {
        const object = objectAt(tokens[4].start);
        const behind = object && tokensFrom(object.end);
        let close = behind && behind();
        if (close && close.kind === K.CommaToken) close = behind();
        if (close && close.kind === K.CloseBraceToken) {
          objects.set(node.argument.end, object);
          return blank(masked, tokens[0].start, close.end);
        }
      }
    }
    if (node.kind === K.ImportDeclaration || node.kind === K.ImportEqualsDeclaration || node.kind === K.ExpressionStatement) {
      const next = tokensFrom(node.getStart(file));
      const [word, phase, behind] = [next(), next(), next()];
      const starts = phase.text === 'defer' ? behind.kind === K.AsteriskToken : behind.kind === K.Identifier || behind.text === 'from';
      const plain = behind.text === 'from' && next().kind !== K.FromKeyword;
      if (word.kind === K.ImportKeyword && (phase.text === 'defer' || phase.text === 'source') && starts && !plain) {
        phases.set(word.start, phase.text === 'source' ? 1 : 2);
        return blank(masked, phase.start, phase.end);
      }
    }
    return ts.forEachChild(node, visit);
  };
  return visit(file) || masked;
}

// ---- comments ----

function tokensOf(file) {
  const tokens = [];
  const visit = (node) => {
    if (node.kind >= K.FirstJSDocNode && node.kind <= K.LastJSDocNode) return;
    const children = node.getChildren(file);
    if (children.length > 0) return children.forEach(visit);
    if (node.kind === K.EndOfFileToken || node.kind === K.SyntaxList) return;
    const start = node.kind === K.JsxText ? node.pos : node.getStart(file);
    if (node.end > start) tokens.push({ kind: node.kind, start, end: node.end });
  };
  visit(file);
  return tokens;
}

const isBreak = (c) => c === '\n' || c === '\r' || c === '\u2028' || c === '\u2029';

// the comments of a part of the source between two tokens
function commentsIn(text, from, to, html) {
  const found = [];
  let newline = false;
  for (let i = from; i < to; ) {
    const line = text.startsWith('//', i);
    if (html.has(i)) {
      found.push({ ...html.get(i), newline });
      i = html.get(i).end;
    } else if (line || text.startsWith('/*', i)) {
      let end = i;
      if (line) while (end < text.length && !isBreak(text[end])) end++;
      else end = text.indexOf('*/', i + 2) + 2;
      if (!line && end < 4) refuse('a comment has no end');
      found.push({ kind: line ? 0 : 1, start: i, end, newline });
      if (!line && /[\n\r\u2028\u2029]/.test(text.slice(i, end))) newline = true;
      i = end;
    } else {
      if (isBreak(text[i])) newline = true;
      i++;
    }
  }
  return found;
}

const BINARY = new Set([
  K.PlusToken, K.MinusToken, K.AsteriskToken, K.AsteriskAsteriskToken, K.SlashToken, K.PercentToken, K.LessThanToken, K.GreaterThanToken,
  K.LessThanEqualsToken, K.GreaterThanEqualsToken, K.EqualsEqualsToken, K.ExclamationEqualsToken, K.EqualsEqualsEqualsToken,
  K.ExclamationEqualsEqualsToken, K.LessThanLessThanToken, K.GreaterThanGreaterThanToken, K.GreaterThanGreaterThanGreaterThanToken,
  K.AmpersandToken, K.BarToken, K.CaretToken, K.AmpersandAmpersandToken, K.BarBarToken, K.QuestionQuestionToken,
]);
const TRAILED = new Set([
  K.Identifier, K.PrivateIdentifier, K.NumericLiteral, K.BigIntLiteral, K.StringLiteral, K.RegularExpressionLiteral, K.JsxText,
  K.TemplateHead, K.TemplateMiddle, K.SemicolonToken, K.OpenBraceToken, K.CloseBraceToken,
]);

// comments with the side and the position of their group
function readComments(text, file, shebangEnd, html) {
  const tokens = tokensOf(file);
  const comments = [];
  let last = shebangEnd > 0 ? { kind: K.ShebangTrivia, start: 0, end: shebangEnd } : undefined;
  for (let i = 0; i <= tokens.length; i++) {
    const next = tokens[i];
    const to = next ? next.start : text.length;
    for (const c of commentsIn(text, last ? last.end : 0, to, html)) {
      let trails = false;
      if (last && last.kind !== K.ShebangTrivia) {
        trails = !c.newline && (c.kind === 1 ? TRAILED.has(last.kind) : !BINARY.has(last.kind));
        if (c.kind === 1 && next && next.kind === K.SemicolonToken && commentsIn(text, c.end, to, html).length === 0) trails = true;
      }
      if (!next && last) trails = true;
      comments.push({ ...c, side: trails ? 1 : 0, position: trails ? last.end : to });
    }
    if (next) last = next;
  }
  return { comments, tokens, last };
}

// ---- the tree ----

const span = (node) => ({ start: node.getStart(), end: node.end });
const isCall = (node) => node.kind === K.CallExpression && !(node.flags & ts.NodeFlags.OptionalChain) && !node.questionDotToken;
const isOperation = (node) =>
  node.kind === K.BinaryExpression && node.operatorToken.kind !== K.CommaToken &&
  (node.operatorToken.kind < K.FirstAssignment || node.operatorToken.kind > K.LastAssignment);

function phaseOf(callee) {
  if (callee.kind === K.ImportKeyword) return 0;
  if (callee.kind === K.MetaProperty && callee.keywordToken === K.ImportKeyword) return ['', 'source', 'defer'].indexOf(callee.name.text);
  return -1;
}

class Tree {
  constructor(objects, phases) {
    this.objects = objects;
    this.phases = phases;
  }

  // the dependencies in a node, the node itself among them
  parts(node) {
    switch (node.kind) {
      case K.CallExpression:
        if (isCall(node) && (phaseOf(node.expression) >= 0 || (node.expression.kind === K.Identifier && node.expression.text === 'require')))
          return [this.call(node)];
        break;
      case K.ImportDeclaration:
        return [this.importDecl(node)];
      case K.ExportDeclaration:
        return [this.exportDecl(node)];
      case K.ImportType:
        return [this.importType(node)];
      case K.ImportEqualsDeclaration:
        return [this.importEquals(node)];
      case K.ModuleDeclaration:
        return [this.moduleDecl(node)];
    }
    return this.inside(node);
  }

  inside(node) {
    const found = [];
    ts.forEachChild(node, (child) => void found.push(...this.parts(child)));
    return found;
  }

  each(nodes) {
    return (nodes || []).flatMap((n) => this.parts(n));
  }

  // a node in full, as an argument or a value
  full(node) {
    const s = span(node);
    switch (node.kind) {
      case K.StringLiteral:
        return this.string(node);
      case K.Identifier:
        return { tag: 2, ...s, text: node.text };
      case K.NoSubstitutionTemplateLiteral:
        return { tag: 3, ...s, pieces: [this.piece(node)], holes: [] };
      case K.TemplateExpression:
        return {
          tag: 3,
          ...s,
          pieces: [node.head, ...node.templateSpans.map((t) => t.literal)].map((p) => this.piece(p)),
          holes: node.templateSpans.map((t) => this.full(t.expression)),
        };
      case K.BinaryExpression:
        if (isOperation(node))
          return { tag: 4, ...s, plus: node.operatorToken.kind === K.PlusToken, left: this.full(node.left), right: this.full(node.right) };
        break;
      case K.ObjectLiteralExpression:
        return this.object(node);
      case K.CallExpression:
        if (isCall(node)) return this.call(node);
        break;
      case K.ImportType:
      case K.ModuleDeclaration:
        return this.parts(node)[0];
    }
    return { tag: 0, ...s, children: this.inside(node) };
  }

  string(node) {
    return { tag: 1, ...span(node), text: node.text };
  }

  // a piece of a template that has a bad escape is uncooked
  piece(node) {
    return node.templateFlags & 2048 ? undefined : node.text;
  }

  object(node) {
    const properties = node.properties.map((p) => {
      if (p.kind === K.SpreadAssignment) return { kind: 0, child: this.full(p.expression) };
      if (p.kind !== K.PropertyAssignment) return { kind: 1, child: { tag: 0, ...span(p), children: this.inside(p) } };
      const value = this.full(p.initializer);
      if (p.name.kind === K.StringLiteral) return { kind: 2, key: 1, text: p.name.text, value };
      if (p.name.kind === K.Identifier) return { kind: 2, key: 2, text: p.name.text, value };
      return { kind: 2, key: 0, child: this.full(p.name.expression || p.name), value };
    });
    return { tag: 5, ...span(node), properties };
  }

  // the attributes behind a specifier: an assert clause, or the object behind `with`
  attributes(specifier, clause) {
    const read = this.objects.get(specifier.end);
    if (read) return this.object(read);
    if (!clause) return undefined;
    const properties = clause.elements.map((e) => ({ kind: 2, key: e.name.kind === K.StringLiteral ? 1 : 2, text: e.name.text, value: this.full(e.value) }));
    return { tag: 5, ...span(clause), properties };
  }

  call(node) {
    const phase = phaseOf(node.expression);
    const args = node.arguments.map((a) => {
      const spread = a.kind === K.SpreadElement;
      return { spread, ...span(a), node: this.full(spread ? a.expression : a) };
    });
    const callee = phase >= 0 ? undefined : this.full(node.expression);
    return { tag: 6, ...span(node), phase: phase >= 0 ? phase : 3, callee, args, further: this.each(node.typeArguments) };
  }

  specifier(node) {
    if (node.kind !== K.StringLiteral) refuse('a specifier is no string');
    return this.string(node);
  }

  importDecl(node) {
    const clause = node.importClause;
    const bindings = clause && clause.namedBindings;
    const sideEffect = !clause || (!clause.name && (!bindings || (bindings.kind === K.NamedImports && bindings.elements.length === 0)));
    return {
      tag: 7,
      ...span(node),
      typeOnly: !!clause && clause.isTypeOnly,
      phase: this.phases.get(node.getStart()) || 0,
      sideEffect,
      string: this.specifier(node.moduleSpecifier),
      object: this.attributes(node.moduleSpecifier, node.assertClause),
    };
  }

  exportDecl(node) {
    const all = !node.exportClause;
    const string = node.moduleSpecifier && this.specifier(node.moduleSpecifier);
    const object = node.moduleSpecifier && this.attributes(node.moduleSpecifier, node.assertClause);
    return { tag: all ? 9 : 8, ...span(node), typeOnly: node.isTypeOnly, string, object };
  }

  importType(node) {
    if (!node.argument.literal) refuse('the argument of an import type is no string');
    const keyword = node.getChildren().find((c) => c.kind === K.ImportKeyword);
    return {
      tag: 10,
      start: keyword.getStart(),
      end: node.end,
      string: this.specifier(node.argument.literal),
      children: [...(node.qualifier ? this.parts(node.qualifier) : []), ...this.each(node.typeArguments)],
      object: this.attributes(node.argument, node.assertions && node.assertions.assertClause),
    };
  }

  importEquals(node) {
    const reference = node.moduleReference;
    const external = reference.kind === K.ExternalModuleReference;
    const isExport = (ts.getCombinedModifierFlags(node) & ts.ModifierFlags.Export) !== 0;
    return { tag: 11, ...span(node), external, typeOnly: node.isTypeOnly, isExport, string: external ? this.specifier(reference.expression) : undefined };
  }

  moduleDecl(node) {
    const string = node.name.kind === K.StringLiteral ? this.string(node.name) : undefined;
    return { tag: 12, ...span(node), string, children: node.body ? this.inside(node.body) : [] };
  }
}

// ---- the sheet ----

class SheetWriter extends Writer {
  constructor(source, offsets) {
    super();
    this.source = source;
    this.offsets = offsets;
  }

  // the span of a String begins and ends with the same mark; another one is a fault of this program
  quoted(n) {
    const mark = this.source[n.start];
    const right = n.end - n.start >= 2 && (mark === '"' || mark === "'") && this.source[n.end - 1] === mark;
    if (!right) throw new Error(`the String from ${n.start} to ${n.end} is not quoted`);
  }

  place(n) {
    this.span({ start: this.offsets[n.start], end: this.offsets[n.end] });
  }

  list(nodes, depth) {
    this.number(nodes.length);
    for (const n of nodes) this.node(n, depth);
  }

  node(n, depth) {
    if (depth > LIMITS.depth) refuse(`nodes nest more than ${LIMITS.depth} deep`);
    const inner = depth + 1;
    this.byte(n.tag);
    this.place(n);
    switch (n.tag) {
      case 0:
        return this.list(n.children, inner);
      case 1:
        this.quoted(n);
        return this.text(n.text);
      case 2:
        return this.text(n.text);
      case 3:
        this.number(n.holes.length);
        for (const p of n.pieces) {
          this.flag(p !== undefined);
          if (p !== undefined) this.text(p);
        }
        for (const h of n.holes) this.node(h, inner);
        return;
      case 4:
        this.flag(n.plus);
        this.node(n.left, inner);
        this.node(n.right, inner);
        return;
      case 5:
        if (n.properties.length > LIMITS.properties) refuse(`an object has more than ${LIMITS.properties} properties`);
        this.number(n.properties.length);
        for (const p of n.properties) {
          this.byte(p.kind);
          if (p.kind < 2) this.node(p.child, inner);
          else {
            this.byte(p.key);
            if (p.key === 0) this.node(p.child, inner);
            else this.text(p.text);
            this.node(p.value, inner);
          }
        }
        return;
      case 6:
        this.byte(n.phase);
        if (n.phase === 3) this.node(n.callee, inner);
        this.number(n.args.length);
        for (const a of n.args) {
          this.flag(a.spread);
          this.place(a);
          this.node(a.node, inner);
        }
        return this.list(n.further, inner);
      case 7:
        this.flag(n.typeOnly);
        this.byte(n.phase);
        this.flag(n.sideEffect);
        this.node(n.string, inner);
        return this.optional(n.object, inner);
      case 8:
        this.flag(n.typeOnly);
        this.optional(n.string, inner);
        if (n.string) this.optional(n.object, inner);
        return;
      case 9:
        this.flag(n.typeOnly);
        this.node(n.string, inner);
        return this.optional(n.object, inner);
      case 10:
        this.node(n.string, inner);
        this.list(n.children, inner);
        return this.optional(n.object, inner);
      case 11:
        this.flag(n.external);
        if (!n.external) return;
        this.flag(n.typeOnly);
        this.flag(n.isExport);
        return this.node(n.string, inner);
      case 12:
        this.optional(n.string, inner);
        return this.list(n.children, inner);
    }
  }

  optional(n, depth) {
    this.flag(n !== undefined);
    if (n !== undefined) this.node(n, depth);
  }
}

// nothing that makes it an ES module: imports, exports, import.meta, await outside of functions
function isScript(file) {
  if (file.externalModuleIndicator || file.statements.some((s) => s.kind === K.ImportEqualsDeclaration)) return false;
  const awaits = (node) => {
    if (ts.isFunctionLike(node)) return false;
    if (node.kind === K.AwaitExpression || (node.kind === K.ForOfStatement && node.awaitModifier)) return true;
    return ts.forEachChild(node, awaits) || false;
  };
  return !awaits(file);
}

function sheetOf(name) {
  const ending = ENDINGS.find(([e]) => name.endsWith(e));
  if (!ending) refuse('no ending of a script: .js .mjs .cjs .jsx .ts .mts .cts .tsx .d.ts .d.mts .d.cts');
  let text;
  try {
    text = new TextDecoder('utf-8', { fatal: true }).decode(fs.readFileSync(name));
  } catch (e) {
    refuse(e instanceof TypeError ? 'not UTF-8' : e.message);
  }
  const offsets = byteOffsets(text);
  if (offsets[text.length] > LIMITS.source) refuse(`the source has ${offsets[text.length]} bytes, more than ${LIMITS.source}`);
  const { file, objects, phases, html } = parse(name, text);
  const shebang = ts.getShebang(text) || '';
  const { comments, tokens, last } = readComments(text, file, shebang.length, html);
  if (comments.length > LIMITS.comments) refuse(`more than ${LIMITS.comments} comments`);

  const w = new SheetWriter(text, offsets);
  w.byte(ending[1]);
  w.text(text, LIMITS.source);
  w.number(comments.length);
  for (const c of comments) {
    w.byte(c.kind);
    w.place(c);
  }
  const groups = [];
  comments.forEach((c, i) => {
    const g = groups[groups.length - 1];
    if (g && g.side === c.side && g.position === c.position) g.count++;
    else groups.push({ side: c.side, position: c.position, first: i, count: 1 });
  });
  groups.sort((a, b) => a.side - b.side || a.position - b.position);
  if (groups.length > LIMITS.groups) refuse(`more than ${LIMITS.groups} groups of comments`);
  w.number(groups.length);
  for (const g of groups) {
    w.byte(g.side);
    w.number(offsets[g.position]);
    w.number(g.first);
    w.number(g.count);
  }

  const start = shebang ? 0 : tokens.length > 0 ? tokens[0].start : text.length;
  const end = last ? last.end : text.length;
  w.flag(isScript(file));
  w.place({ start, end });
  w.flag(shebang.length > 0);
  w.flag(file.statements.length > 0);
  if (file.statements.length > 0) w.number(offsets[file.statements[0].getStart()]);
  w.node({ tag: 0, start, end, children: new Tree(objects, phases).inside(file) }, 1);
  if (w.bytes.length > LIMITS.sheet) refuse(`the sheet has ${w.bytes.length} bytes, more than ${LIMITS.sheet}`);
  return { media: MEDIA[ending[1]], bytes: Buffer.from(w.bytes) };
}

// ---- the program ----

// the sheet of a file, or nothing and a line on standard error
function attempt(name) {
  try {
    return sheetOf(name);
  } catch (e) {
    if (!(e instanceof Refused || e instanceof RangeError)) throw e; // the parser's stack has an end
    console.error(`export: ${name}: ${e.message}`);
    return undefined;
  }
}

const namesOnInput = () => fs.readFileSync(0, 'utf8').split('\n').filter((n) => n);

function batch(sheetsName, kindsName) {
  const sheets = fs.openSync(sheetsName, 'w');
  const kinds = fs.openSync(kindsName, 'w');
  let made = 0;
  let refused = 0;
  for (const name of namesOnInput()) {
    const sheet = attempt(name);
    if (!sheet) {
      refused++;
      continue;
    }
    const length = Buffer.alloc(4);
    length.writeUInt32LE(sheet.bytes.length);
    fs.writeSync(sheets, Buffer.concat([length, sheet.bytes]));
    fs.writeSync(kinds, sheet.media + '\n');
    made++;
  }
  console.log(`${made} files exported, ${refused} refused`);
}

// where many files take a while, a terminal is told how far it is
function each(folder) {
  const names = namesOnInput();
  const told = names.length >= 20 && process.stderr.isTTY;
  names.forEach((name, i) => {
    if (told) process.stderr.write(`export: ${i + 1} of ${names.length}\r`);
    const sheet = attempt(name);
    if (sheet) fs.writeFileSync(`${folder}/${i + 1}.sheet`, sheet.bytes);
    else process.exitCode = 1;
  });
  if (told) process.stderr.write(`${' '.repeat(30)}\r`);
}

// what is not foreseen is a failure, and no refusal
process.on('uncaughtException', (e) => {
  console.error(e.stack);
  process.exit(2);
});

const args = process.argv.slice(2);
if (args[0] === '--batch' && args.length === 3) batch(args[1], args[2]);
else if (args[0] === '--each' && args.length === 2) each(args[1]);
else if (args.length === 1 || (args.length === 2 && !args[0].startsWith('-'))) {
  const sheet = attempt(args[0]);
  if (!sheet) process.exit(1);
  fs.writeFileSync(args.length === 2 ? args[1] : 1, sheet.bytes);
} else {
  console.error('usage: export FILE [SHEET] | export --batch SHEETS KINDS | export --each FOLDER');
  process.exit(2);
}
