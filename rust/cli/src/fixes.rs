//! A list of corrections as a spreadsheet gives it: comma-separated text (RFC 4180), a line each with record, variable and value.

/// A correction as it is written. Lines count from 1, those inside quotes with them.
#[derive(Clone, Debug, PartialEq, Eq)]
pub struct Fix {
    pub line: usize,
    pub fields: Vec<String>,
}

/// All lines but the heading `record,variable,value`, where it is there, and empty ones. Bytes that are no UTF-8 are Latin-1.
pub fn parse(bytes: &[u8]) -> Result<Vec<Fix>, String> {
    let bytes = bytes.strip_prefix(b"\xef\xbb\xbf").unwrap_or(bytes);
    let text = match std::str::from_utf8(bytes) {
        Ok(text) => text.to_string(),
        Err(_) => bytes.iter().map(|&byte| byte as char).collect(),
    };
    let mut signs = text.chars().peekable();
    let mut fixes = Vec::new();
    let mut line = 1;
    while signs.peek().is_some() {
        let started = line;
        let fields = fields(&mut signs, &mut line).map_err(|why| format!("line {started}: {why}"))?;
        fixes.push(Fix { line: started, fields });
    }
    let heading = fixes.first().is_some_and(|fix| fix.fields == ["record", "variable", "value"]);
    let empty = |fix: &Fix| fix.fields.len() == 1 && fix.fields[0].is_empty();
    Ok(fixes.into_iter().skip(usize::from(heading)).filter(|fix| !empty(fix)).collect())
}

type Signs<'a> = std::iter::Peekable<std::str::Chars<'a>>;

/// The fields of a line, and its end.
fn fields(signs: &mut Signs, line: &mut usize) -> Result<Vec<String>, String> {
    let mut fields = Vec::new();
    loop {
        fields.push(if signs.next_if_eq(&'"').is_some() { quoted(signs, line)? } else { bare(signs)? });
        match signs.next() {
            Some(',') => {}
            Some('\r') if signs.next_if_eq(&'\n').is_some() => break,
            Some('\n') | None => break,
            Some(_) => return Err("behind a field a comma or the line's end was due".into()),
        }
    }
    *line += 1;
    Ok(fields)
}

/// Up to a comma or the line's end.
fn bare(signs: &mut Signs) -> Result<String, String> {
    let mut field = String::new();
    while let Some(sign) = signs.next_if(|sign| !matches!(sign, ',' | '\r' | '\n')) {
        if sign == '"' {
            return Err("a quote stands inside a field that has none around it".into());
        }
        field.push(sign);
    }
    Ok(field)
}

/// Up to the closing quote; two are one.
fn quoted(signs: &mut Signs, line: &mut usize) -> Result<String, String> {
    let mut field = String::new();
    loop {
        match signs.next() {
            Some('"') if signs.next_if_eq(&'"').is_none() => return Ok(field),
            Some(sign) => {
                *line += usize::from(sign == '\n');
                field.push(sign);
            }
            None => return Err("a quote is not closed".into()),
        }
    }
}

#[cfg(test)]
mod tests {
    use super::*;

    fn lines(text: &[u8]) -> Result<Vec<(usize, Vec<String>)>, String> {
        parse(text).map(|fixes| fixes.into_iter().map(|fix| (fix.line, fix.fields)).collect())
    }

    fn strings(fields: &[&str]) -> Vec<String> {
        fields.iter().map(|field| field.to_string()).collect()
    }

    #[test]
    fn fields_lines_and_quotes() {
        let text = b"\xef\xbb\xbfrecord,variable,value\r\n1,FEE,12.50\r\n\n2,\"a, \"\"b\"\"\nc\",\n3,x,";
        let due = vec![
            (2, strings(&["1", "FEE", "12.50"])),
            (4, strings(&["2", "a, \"b\"\nc", ""])),
            (6, strings(&["3", "x", ""])),
        ];
        assert_eq!(lines(text), Ok(due));
        assert_eq!(lines(b""), Ok(vec![]));
        assert_eq!(lines(b"1,x,M\xfc"), Ok(vec![(1, strings(&["1", "x", "M\u{fc}"]))]));
    }

    #[test]
    fn what_is_malformed_names_its_line() {
        for wrong in [&b"\n1,\"x"[..], b"\n1,x\"y,z", b"\n1,\"x\"y,z", b"\n1,\"x\"\rz"] {
            assert!(lines(wrong).unwrap_err().starts_with("line 2: "), "{wrong:?}");
        }
    }
}
