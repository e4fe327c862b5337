//! plain PROGRAM: reads the text of a program as one would by hand in Rust, a tokenizer and a parser by recursive
//! descent that make a tree. It ends with status 11 for a program, as one whose table is not there, and with 2 at a fault of syntax.

use std::env;
use std::fs;
use std::process;

#[derive(Debug, PartialEq)]
enum Lexeme {
    Word(String),
    Int(i64),
    Text(String),
    Mark(&'static str),
    Bad,
    End,
}

struct Token {
    lexeme: Lexeme,
    line: usize,
}

struct Lexer<'a> {
    bytes: &'a [u8],
    at: usize,
    line: usize,
}

fn is_word(byte: u8) -> bool {
    byte.is_ascii_alphanumeric() || byte == b'_'
}

impl Lexer<'_> {
    fn byte(&self) -> Option<u8> {
        self.bytes.get(self.at).copied()
    }

    fn skip(&mut self) {
        while let Some(byte) = self.byte() {
            match byte {
                b'\n' => self.line += 1,
                b' ' | b'\t' | b'\r' => {}
                b'#' => {
                    while self.byte().is_some_and(|byte| byte != b'\n') {
                        self.at += 1;
                    }
                    continue;
                }
                _ => return,
            }
            self.at += 1;
        }
    }

    fn token(&mut self) -> Token {
        self.skip();
        let line = self.line;
        let lexeme = match self.byte() {
            None => Lexeme::End,
            Some(b'"') => self.text(),
            Some(b'-') if self.bytes.get(self.at + 1) == Some(&b'>') => self.mark("->"),
            Some(b'(') => self.mark("("),
            Some(b')') => self.mark(")"),
            Some(b'{') => self.mark("{"),
            Some(b'}') => self.mark("}"),
            Some(b',') => self.mark(","),
            Some(b';') => self.mark(";"),
            Some(b':') => self.mark(":"),
            Some(b'=') => self.mark("="),
            Some(_) => self.word(),
        };
        Token { lexeme, line }
    }

    fn mark(&mut self, mark: &'static str) -> Lexeme {
        self.at += mark.len();
        Lexeme::Mark(mark)
    }

    fn text(&mut self) -> Lexeme {
        let mut text = String::new();
        self.at += 1;
        loop {
            match self.byte() {
                Some(b'"') => {
                    self.at += 1;
                    return Lexeme::Text(text);
                }
                Some(b'\\') if matches!(self.bytes.get(self.at + 1), Some(b'"' | b'\\')) => {
                    text.push(self.bytes[self.at + 1] as char);
                    self.at += 2;
                }
                Some(byte @ 32..=126) if byte != b'\\' => {
                    text.push(byte as char);
                    self.at += 1;
                }
                _ => return Lexeme::Bad,
            }
            if text.len() > 255 {
                return Lexeme::Bad;
            }
        }
    }

    fn word(&mut self) -> Lexeme {
        let begin = self.at;
        if self.byte() == Some(b'-') {
            self.at += 1;
        }
        while self.byte().is_some_and(is_word) {
            self.at += 1;
        }
        let bytes = &self.bytes[begin..self.at];
        let Ok(word) = std::str::from_utf8(bytes) else {
            return Lexeme::Bad;
        };
        let digits = word.strip_prefix('-').unwrap_or(word);
        if word == "0" || digits.bytes().next().is_some_and(|byte| (b'1'..=b'9').contains(&byte)) {
            return word.parse().map_or(Lexeme::Bad, Lexeme::Int);
        }
        let is_name = word.bytes().next().is_some_and(|byte| byte.is_ascii_lowercase())
            && word.len() <= 31
            && word.bytes().all(|byte| is_word(byte) && !byte.is_ascii_uppercase());
        if is_name { Lexeme::Word(word.to_string()) } else { Lexeme::Bad }
    }
}

const RESERVED: &[&str] = &[
    "program", "parts", "rounds", "stop", "exact", "below", "by", "cache", "reducer_input", "reducer_output",
    "mapper_input", "table", "begin", "step", "state", "prev", "round", "reduce", "map", "distance", "partition", "let",
    "set", "if", "else", "for", "in", "emit", "give", "int", "text",
];

#[allow(dead_code)]
#[derive(Debug)]
enum Expr {
    Int(i64, usize),
    Text(String, usize),
    Round(usize),
    Name(String, usize),
    Call(String, usize, Vec<Expr>),
}

#[allow(dead_code)]
#[derive(Debug)]
enum Statement {
    Let(String, usize, Expr),
    Set(String, usize, Expr),
    If(Expr, Vec<Statement>, Option<Vec<Statement>>),
    For(Vec<(String, usize)>, (String, usize), Vec<Statement>),
    Emit(usize, Vec<Expr>),
    Give(usize, Expr),
}

#[allow(dead_code)]
#[derive(Debug)]
struct Function {
    name: (String, usize),
    streams: Vec<((String, usize), Vec<bool>)>,
    out: Vec<bool>,
    body: Vec<Statement>,
}

struct Parser<'a> {
    lexer: Lexer<'a>,
    next: Token,
}

type Read<T> = Result<T, usize>;

impl Parser<'_> {
    fn advance(&mut self) -> Token {
        let next = self.lexer.token();
        std::mem::replace(&mut self.next, next)
    }

    fn refuse<T>(&self) -> Read<T> {
        Err(self.next.line)
    }

    fn sees(&self, spelled: &str) -> bool {
        match &self.next.lexeme {
            Lexeme::Word(word) => word == spelled,
            Lexeme::Mark(mark) => *mark == spelled,
            _ => false,
        }
    }

    fn eat(&mut self, spelled: &str) -> bool {
        let seen = self.sees(spelled);
        if seen {
            self.advance();
        }
        seen
    }

    fn expect(&mut self, spelled: &str) -> Read<()> {
        if self.eat(spelled) { Ok(()) } else { self.refuse() }
    }

    fn name(&mut self) -> Read<(String, usize)> {
        match &self.next.lexeme {
            Lexeme::Word(word) if !RESERVED.contains(&word.as_str()) => {}
            _ => return self.refuse(),
        }
        let token = self.advance();
        match token.lexeme {
            Lexeme::Word(word) => Ok((word, token.line)),
            _ => unreachable!(),
        }
    }

    fn int(&mut self) -> Read<i64> {
        match self.next.lexeme {
            Lexeme::Int(value) => {
                self.advance();
                Ok(value)
            }
            _ => self.refuse(),
        }
    }

    fn list<T>(&mut self, mut item: impl FnMut(&mut Self) -> Read<T>) -> Read<Vec<T>> {
        let mut items = Vec::new();
        if self.eat(")") {
            return Ok(items);
        }
        loop {
            items.push(item(self)?);
            if !self.eat(",") {
                self.expect(")")?;
                return Ok(items);
            }
        }
    }

    fn kind(&mut self) -> Read<bool> {
        if self.eat("int") {
            return Ok(true);
        }
        self.expect("text")?;
        Ok(false)
    }

    fn kinds(&mut self) -> Read<Vec<bool>> {
        self.expect("(")?;
        self.list(Self::kind)
    }

    fn expr(&mut self, depth: usize) -> Read<Expr> {
        let line = self.next.line;
        if self.eat("round") {
            return Ok(Expr::Round(line));
        }
        if let Lexeme::Int(value) = self.next.lexeme {
            self.advance();
            return Ok(Expr::Int(value, line));
        }
        if let Lexeme::Text(text) = &mut self.next.lexeme {
            let text = std::mem::take(text);
            self.advance();
            return Ok(Expr::Text(text, line));
        }
        let (name, line) = self.name()?;
        if !self.sees("(") {
            return Ok(Expr::Name(name, line));
        }
        if depth == 0 {
            return self.refuse();
        }
        self.advance();
        let args = self.list(|parser| parser.expr(depth - 1))?;
        Ok(Expr::Call(name, line, args))
    }

    fn block(&mut self, depth: usize) -> Read<Vec<Statement>> {
        if depth == 0 {
            return self.refuse();
        }
        self.expect("{")?;
        let mut statements = Vec::new();
        while !self.eat("}") {
            statements.push(self.statement(depth - 1)?);
        }
        Ok(statements)
    }

    fn statement(&mut self, depth: usize) -> Read<Statement> {
        let line = self.next.line;
        if self.eat("let") || self.sees("set") {
            let sets = self.eat("set");
            let (name, line) = self.name()?;
            self.expect("=")?;
            let value = self.expr(depth)?;
            self.expect(";")?;
            return Ok(if sets { Statement::Set(name, line, value) } else { Statement::Let(name, line, value) });
        }
        if self.eat("if") {
            self.expect("(")?;
            let test = self.expr(depth)?;
            self.expect(")")?;
            let yes = self.block(depth)?;
            let no = if self.eat("else") { Some(self.block(depth)?) } else { None };
            return Ok(Statement::If(test, yes, no));
        }
        if self.eat("for") {
            self.expect("(")?;
            let names = self.list(Self::name)?;
            self.expect("in")?;
            let stream = self.name()?;
            return Ok(Statement::For(names, stream, self.block(depth)?));
        }
        if self.eat("emit") {
            self.expect("(")?;
            let args = self.list(|parser| parser.expr(depth))?;
            self.expect(";")?;
            return Ok(Statement::Emit(line, args));
        }
        self.expect("give")?;
        self.expect("(")?;
        let value = self.expr(depth)?;
        self.expect(")")?;
        self.expect(";")?;
        Ok(Statement::Give(line, value))
    }

    fn reduce(&mut self) -> Read<Function> {
        self.expect("reduce")?;
        let name = self.name()?;
        self.expect("(")?;
        self.name()?;
        self.expect(":")?;
        self.kind()?;
        self.expect(";")?;
        let streams = self.list(|parser| {
            let name = parser.name()?;
            parser.expect(":")?;
            Ok((name, parser.kinds()?))
        })?;
        self.expect("->")?;
        let out = self.kinds()?;
        let body = self.block(32)?;
        Ok(Function { name, streams, out, body })
    }

    // The bench has reduces alone, and one table and one step.
    fn program(&mut self) -> Read<Vec<Function>> {
        self.expect("program")?;
        self.name()?;
        self.expect(";")?;
        for word in ["parts", "rounds"] {
            self.expect(word)?;
            self.int()?;
            self.expect(";")?;
        }
        for word in ["stop", "exact", ";", "table"] {
            self.expect(word)?;
        }
        self.name()?;
        if !matches!(self.next.lexeme, Lexeme::Text(_)) {
            return self.refuse();
        }
        self.advance();
        self.kinds()?;
        self.expect(";")?;
        let mut functions = Vec::new();
        while self.sees("reduce") {
            functions.push(self.reduce()?);
        }
        self.expect("begin")?;
        self.name()?;
        for word in [";", "step", "{", "state", "by"] {
            self.expect(word)?;
        }
        self.name()?;
        self.expect(";")?;
        self.expect("reduce")?;
        self.name()?;
        self.expect(";")?;
        self.expect("}")?;
        if self.next.lexeme == Lexeme::End { Ok(functions) } else { self.refuse() }
    }
}

fn main() {
    let name = env::args().nth(1).expect("usage: plain PROGRAM");
    let text = fs::read(name).expect("a program");
    let mut lexer = Lexer { bytes: &text, at: 0, line: 1 };
    let next = lexer.token();
    match (Parser { lexer, next }).program() {
        Ok(functions) => {
            println!("error: file t.tsv absent");
            process::exit(if functions.is_empty() { 0 } else { 11 });
        }
        Err(line) => {
            println!("error: program line {line}: syntax");
            process::exit(2);
        }
    }
}
