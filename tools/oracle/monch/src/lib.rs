//! Stands in for monch 0.5: the parser combinators that src/ast/mod.rs uses.
//! A parser answers the input that is left and a value; `Backtrace` lets another alternative be tried.

#[derive(Debug, Clone, PartialEq, Eq)]
pub enum ParseError {
    Backtrace,
}

impl ParseError {
    pub fn backtrace<'a, O>() -> ParseResult<'a, O> {
        Err(ParseError::Backtrace)
    }
}

pub type ParseResult<'a, O> = Result<(&'a str, O), ParseError>;

pub fn next_char(input: &str) -> ParseResult<'_, char> {
    match input.chars().next() {
        Some(c) => Ok((&input[c.len_utf8()..], c)),
        None => ParseError::backtrace(),
    }
}

pub fn ch<'a>(c: char) -> impl Fn(&'a str) -> ParseResult<'a, char> {
    move |input| match next_char(input)? {
        (rest, found) if found == c => Ok((rest, c)),
        _ => ParseError::backtrace(),
    }
}

pub fn tag<'a>(value: &'static str) -> impl Fn(&'a str) -> ParseResult<'a, &'a str> {
    move |input| match input.strip_prefix(value) {
        Some(rest) => Ok((rest, &input[..value.len()])),
        None => ParseError::backtrace(),
    }
}

/// The longest run of characters that meet the condition; it may be empty.
pub fn take_while<'a>(cond: impl Fn(char) -> bool) -> impl Fn(&'a str) -> ParseResult<'a, &'a str> {
    move |input| {
        let end = input.find(|c| !cond(c)).unwrap_or(input.len());
        Ok((&input[end..], &input[..end]))
    }
}

/// The same by bytes. The condition must end the run at a boundary of characters.
pub fn take_while_byte<'a>(cond: impl Fn(u8) -> bool) -> impl Fn(&'a str) -> ParseResult<'a, &'a str> {
    move |input| {
        let end = input.bytes().position(|b| !cond(b)).unwrap_or(input.len());
        Ok((&input[end..], &input[..end]))
    }
}

/// The longest run of white space, at least one character.
pub fn whitespace(input: &str) -> ParseResult<'_, &str> {
    match take_while(char::is_whitespace)(input)? {
        (_, "") => ParseError::backtrace(),
        found => Ok(found),
    }
}

pub fn skip_whitespace(input: &str) -> ParseResult<'_, ()> {
    let (input, _) = take_while(char::is_whitespace)(input)?;
    Ok((input, ()))
}

pub fn map<'a, O, R>(parser: impl Fn(&'a str) -> ParseResult<'a, O>, func: impl Fn(O) -> R) -> impl Fn(&'a str) -> ParseResult<'a, R> {
    move |input| {
        let (input, value) = parser(input)?;
        Ok((input, func(value)))
    }
}

pub fn maybe<'a, O>(parser: impl Fn(&'a str) -> ParseResult<'a, O>) -> impl Fn(&'a str) -> ParseResult<'a, Option<O>> {
    move |input| match parser(input) {
        Ok((input, value)) => Ok((input, Some(value))),
        Err(ParseError::Backtrace) => Ok((input, None)),
    }
}

pub fn or<'a, O>(
    a: impl Fn(&'a str) -> ParseResult<'a, O>,
    b: impl Fn(&'a str) -> ParseResult<'a, O>,
) -> impl Fn(&'a str) -> ParseResult<'a, O> {
    move |input| match a(input) {
        Err(ParseError::Backtrace) => b(input),
        found => found,
    }
}

pub fn or3<'a, O>(
    a: impl Fn(&'a str) -> ParseResult<'a, O>,
    b: impl Fn(&'a str) -> ParseResult<'a, O>,
    c: impl Fn(&'a str) -> ParseResult<'a, O>,
) -> impl Fn(&'a str) -> ParseResult<'a, O> {
    or(a, or(b, c))
}

pub fn terminated<'a, O, P>(
    first: impl Fn(&'a str) -> ParseResult<'a, O>,
    second: impl Fn(&'a str) -> ParseResult<'a, P>,
) -> impl Fn(&'a str) -> ParseResult<'a, O> {
    move |input| {
        let (input, value) = first(input)?;
        let (input, _) = second(input)?;
        Ok((input, value))
    }
}

pub fn delimited<'a, A, O, B>(
    before: impl Fn(&'a str) -> ParseResult<'a, A>,
    parser: impl Fn(&'a str) -> ParseResult<'a, O>,
    after: impl Fn(&'a str) -> ParseResult<'a, B>,
) -> impl Fn(&'a str) -> ParseResult<'a, O> {
    move |input| {
        let (input, _) = before(input)?;
        let (input, value) = parser(input)?;
        let (input, _) = after(input)?;
        Ok((input, value))
    }
}

/// Items with separators between them; a separator behind the last one is taken too.
pub fn separated_list<'a, O, S>(
    item: impl Fn(&'a str) -> ParseResult<'a, O>,
    separator: impl Fn(&'a str) -> ParseResult<'a, S>,
) -> impl Fn(&'a str) -> ParseResult<'a, Vec<O>> {
    move |mut input| {
        let mut values = Vec::new();
        while let Ok((rest, value)) = item(input) {
            values.push(value);
            input = rest;
            match separator(input) {
                Ok((rest, _)) => input = rest,
                Err(ParseError::Backtrace) => break,
            }
        }
        Ok((input, values))
    }
}
