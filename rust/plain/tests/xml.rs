//! C-15: document 000's elements as READINGS-02 takes them, point by point. `¶` in a case marks the place of its refusal and is
//! taken out before reading.

use zarfolin_plain::{BREAK, MARK_XML, ROW, column, decode_xml, is_xml, read_definition, read_xml};

const HEAD: &str = "<?xml version=\"1.0\"?><sss version=\"1.2\" languages=\"en fr\"><survey><record ident=\"R\">";
const TAIL: &str = "</record></survey></sss>";
const VALUES: &str = "<values><value code=\"1\">a</value></values>";

fn whole(variables: &str) -> String {
    format!("{HEAD}{variables}{TAIL}")
}

/// One variable with these parts.
fn variable(kind: &str, rest: &str) -> String {
    whole(&format!(
        "<variable ident=\"1\" type=\"{kind}\"><name>a</name><label>b</label><position start=\"1\" finish=\"9\"/>{rest}</variable>"
    ))
}

fn single(values: &str) -> String {
    variable("single", &format!("<values>{values}</values>"))
}

fn quantity(values: &str) -> String {
    variable("quantity", &format!("<values>{values}</values>"))
}

/// A variable of this number, type and further attributes, name, and parts behind its label.
fn named(n: u32, attributes: &str, name: &str, rest: &str) -> String {
    format!(
        "<variable ident=\"{n}\" {attributes}><name>{name}</name><label/><position start=\"1\" finish=\"9\"/>{rest}</variable>"
    )
}

fn logical(n: u32, name: &str, rest: &str) -> String {
    named(n, "type=\"logical\"", name, rest)
}

fn label(text: &str) -> String {
    let v = named(1, "type=\"single\"", "a", VALUES).replace("<label/>", &format!("<label>{text}</label>"));
    whole(&v)
}

fn bytes_of(case: &str) -> (Vec<u8>, Option<usize>) {
    let place = case.find('¶');
    (case.replacen('¶', "", 1).into_bytes(), place)
}

fn answer(def: &[u8]) -> (u32, usize) {
    let mut table = vec![-7; 30_000];
    let r = read_xml(def, &mut table);
    if r.number != 0 {
        assert!(table.iter().all(|&n| n == -7), "a refusal keeps the table");
    }
    (r.number, r.place)
}

#[track_caller]
fn refused(number: u32, case: &str) {
    let (def, place) = bytes_of(case);
    let place = place.expect("a case marks its place");
    assert_eq!(answer(&def), (number, place), "{}", String::from_utf8_lossy(&def));
}

#[track_caller]
fn refused_bytes(number: u32, place: usize, def: &[u8]) {
    assert_eq!(answer(def), (number, place), "{}", String::from_utf8_lossy(def));
}

#[track_caller]
fn table(case: &str) -> Vec<i64> {
    let mut table = vec![0; 30_000];
    let r = read_xml(case.as_bytes(), &mut table);
    assert_eq!((r.number, r.place), (0, 0), "{case}");
    table.truncate(6 + ROW * r.variables + 4 * r.lines);
    table
}

fn row(t: &[i64], i: usize) -> &[i64] {
    &t[6 + ROW * i..][..ROW]
}

#[track_caller]
fn decodes(text: &str, signs: &[i64]) {
    let def = label(text);
    let t = table(&def);
    let (place, length) = (row(&t, 0)[column::LABEL], row(&t, 0)[column::LABEL_LENGTH]);
    assert_eq!(length as usize, text.len());
    let mut list = vec![-1; 64];
    let n = decode_xml(def.as_bytes(), place as u64, length as u64, &mut list).expect(text);
    assert_eq!(&list[..n], signs, "{text}");
    assert!(list[n..].iter().all(|&x| x == -1));
}

fn bytes(s: &str) -> Vec<i64> {
    s.bytes().map(i64::from).collect()
}

// ---- document 000's example

const EXAMPLE: &str = include_str!("example_000.xml");

#[test]
fn example_as_printed_and_mended() {
    let printed = EXAMPLE.replace("ISO-8859-1\"?>", "ISO-8859-1\">").replace("<name>Q3<", "<name>03<");
    let place = printed.find("\">").unwrap() + 1;
    assert_eq!(answer(printed.as_bytes()), (50, place));
    let named = EXAMPLE.replace("<name>Q3<", "<name>03<");
    assert_eq!(answer(named.as_bytes()), (9, named.find("03<").unwrap()));
    let t = table(EXAMPLE);
    assert_eq!(t[..6], [MARK_XML, 8, 20, 54, 6, 6 + 20 * 8]);
    assert_eq!(row(&t, 6)[column::FILTER], 6);
    assert_eq!(row(&t, 7)[column::DECIMALS], 4);
    assert!((0..8).all(|i| row(&t, i)[column::USE] == 0));
}

// ---- points 1 to 6: the table, which file is XML, the declaration, the DOCTYPE

#[test]
fn which_file_is_xml() {
    assert!(is_xml(b"<?xml") && is_xml(b"<sss") && is_xml(b"\xEF\xBB\xBF<sss"));
    assert!(!is_xml(b" <sss") && !is_xml(b"<c>SSS") && !is_xml(b"SSS") && !is_xml(b"<!-- -->") && !is_xml(b"<SSS"));
    assert_eq!(read_definition(b"<c>SSS", &mut []).number, 2);
    let bare = single("<value code=\"1\">a</value>").replace("<?xml version=\"1.0\"?>", "");
    table(&bare);
    table(&format!("\u{FEFF}{bare}"));
}

fn declared(declaration: &str) -> String {
    single("<value code=\"1\">a</value>").replace("<?xml version=\"1.0\"?>", declaration)
}

#[test]
fn declarations() {
    for good in [
        "<?xml version='1.0'?>",
        "<?xml\tversion = \"1.0\"\r\n?>",
        "<?xml version=\"1.0\" encoding=\"utf-8\"?>",
        "<?xml version=\"1.0\" encoding='iso-8859-1' standalone = 'no' ?>",
        "<?xml version=\"1.0\" standalone=\"yes\"?>\n<!-- c -->",
        "\u{FEFF}<?xml version=\"1.0\" encoding=\"UTF-8\"?>",
    ] {
        table(&declared(good));
    }
    for bad in [
        "<?xml ¶versiom=\"1.0\"?>",
        "<?xml version¶x=\"1.0\"?>",
        "<?xml version=\"¶1.1\"?>",
        "<?xml version=\"¶ 1.0\"?>",
        "<?xml version¶\"1.0\"?>",
        "<?xml version=¶1.0?>",
        "<?xml version=\"1.0\"¶encoding=\"UTF-8\"?>",
        "<?xml version=\"1.0\" encoding=\"¶UTF8\"?>",
        "<?xml version=\"1.0\" encoding=\"¶latin1\"?>",
        "<?xml version=\"1.0\" encoding=\"¶\"?>",
        "<?xml version=\"1.0\" standalone=\"¶maybe\"?>",
        "<?xml version=\"1.0\" standalone=\"no\" ¶encoding=\"UTF-8\"?>",
        "<?xml version=\"1.0\" ¶foo=\"1\"?>",
        "<?xml version=\"1.0\" ¶>",
        "<?xml version=\"1.0\" ¶? >",
        "<?xml¶version=\"1.0\"?>",
        "<?xml ¶?>",
        "\u{FEFF}<?xml version=\"1.0\" encoding=\"¶ISO-8859-1\"?>",
    ] {
        refused(50, &declared(bad));
    }
    refused_bytes(50, 0, b"<?xml");
    refused_bytes(50, 3, b"\xEF\xBB\xBF<?xml version");
    refused_bytes(50, 6, b"<?xml vers");
    refused_bytes(50, 15, b"<?xml version=\"1.0");
}

#[test]
fn doctypes() {
    let with = |doctype: &str| declared(&format!("<?xml version=\"1.0\"?>{doctype}"));
    for good in [
        "<!DOCTYPE sss SYSTEM \"x\">",
        "\n<!-- a -->\n<!DOCTYPE sss PUBLIC \"-//triple-s//DTD Survey Interchange v1.2//EN\" 'http://x\">' >\n<!-- b -->",
        "<!DOCTYPE sss SYSTEM ''>",
    ] {
        table(&with(good));
    }
    for bad in [
        "<!DOCTYPE¶>",
        "<!DOCTYPE sss¶>",
        "<!DOCTYPE sss ¶>",
        "<!DOCTYPE sss¶x SYSTEM \"x\">",
        "<!DOCTYPE sss ¶system \"x\">",
        "<!DOCTYPE sss SYSTEM¶\"x\">",
        "<!DOCTYPE sss SYSTEM \"x\" ¶\"y\">",
        "<!DOCTYPE sss PUBLIC \"x\" ¶>",
        "<!DOCTYPE sss PUBLIC \"x\"¶\"y\">",
        "<!DOCTYPE sss PUBLIC \"x¶{\" \"y\">",
        "<!DOCTYPE sss SYSTEM \"x\">¶<!DOCTYPE sss SYSTEM \"x\">",
        "¶<!DOCTIPE sss SYSTEM \"x\">",
        "¶x",
        "¶&#65;",
        "¶</sss>",
        "¶<![CDATA[x]]>",
    ] {
        refused(50, &with(bad));
    }
    refused(51, &with("<!DOCTYPE sss ¶[<!ELEMENT x>]>"));
    refused(51, &with("<!DOCTYPE sss¶[]>"));
    refused(51, &with("<!DOCTYPE sss SYSTEM \"x\" ¶[]>"));
    refused(51, &with("¶<?pi x?>"));
    refused(51, &with("¶<other>"));
    refused(50, &with("<other ¶<"));
    refused(2, &with("<!DOCTYPE ¶other SYSTEM \"x\">"));
    // Point 4: "Where the file ends too early: 50", inside the name too; a name that departs from it is another name.
    refused_bytes(50, 31, b"<?xml version=\"1.0\"?><!DOCTYPE s");
    refused_bytes(50, 31, b"<?xml version=\"1.0\"?><!DOCTYPE ss");
    refused_bytes(50, 32, b"<?xml version=\"1.0\"?><!DOCTYPE s\xFFs SYSTEM \"x\">");
    refused_bytes(2, 31, b"<?xml version=\"1.0\"?><!DOCTYPE ssx");
    refused_bytes(2, 31, b"<?xml version=\"1.0\"?><!DOCTYPE ss ");
    refused_bytes(50, 21, b"<?xml version=\"1.0\"?><!DOCTYPE sss SYSTEM \"x");
    refused_bytes(50, 44, b"<?xml version=\"1.0\"?><!DOCTYPE sss PUBLIC \"x<y");
}

#[test]
fn behind_the_root() {
    let good = single("<value code=\"1\">a</value>");
    table(&format!("{good} \r\n<!-- x -->\t"));
    refused(50, &format!("{good} ¶x"));
    refused(50, &format!("{good}¶<sss>"));
    refused(50, &format!("{good}¶</sss>"));
    refused(50, &format!("{good}¶<![CDATA[]]>"));
    refused(51, &format!("{good} ¶<?x?>"));
    refused(50, &format!("{good}¶<!-- x"));
    refused(50, &format!("{good}¶\u{1}"));
    // it comes before 9 and 10
    let names = good.replace("languages", "options=\"standardnames\" languages").replace(">a</name>", ">9</name>");
    refused(50, &format!("{names}¶x"));
    refused(9, &names.replace(">9<", ">¶9<"));
    assert_eq!(read_xml(good.as_bytes(), &mut [0; 29]).number, 10);
    assert_eq!(read_xml(good.as_bytes(), &mut [0; 30]).number, 0);
}

// ---- points 7 to 10: characters, references, comments

#[test]
fn characters() {
    let utf = |bad: &[u8]| {
        let def = label("x@y").into_bytes();
        let at = def.iter().position(|&x| x == b'@').unwrap();
        (at, [&def[..at], bad, &def[at + 1..]].concat())
    };
    for good in [
        "\u{80}",
        "\u{7FF}",
        "\u{800}",
        "\u{D7FF}",
        "\u{E000}",
        "\u{FFFD}",
        "\u{10000}",
        "\u{10FFFF}",
        "\t\n\r ~\u{7F}",
    ] {
        assert_eq!(answer(&utf(good.as_bytes()).1).0, 0, "{good:?}");
    }
    for bad in [
        &[0x80][..],
        &[0xC0, 0x80],
        &[0xC1, 0xBF],
        &[0xC3],
        &[0xE0, 0x9F, 0xBF],
        &[0xED, 0xA0, 0x80],
        &[0xEF, 0xBF, 0xBE],
        &[0xEF, 0xBF, 0xBF],
        &[0xF0, 0x8F, 0xBF, 0xBF],
        &[0xF4, 0x90, 0x80, 0x80],
        &[0xF8, 0x88, 0x80, 0x80, 0x80],
        &[0xFF],
        &[0],
        &[8],
        &[11],
        &[31],
    ] {
        let (at, def) = utf(bad);
        refused_bytes(50, at, &def);
    }
    // the same bytes in ISO-8859-1, but for those below 32
    let latin = declared("<?xml version=\"1.0\" encoding=\"ISO-8859-1\"?>").replace(">b<", ">@<").into_bytes();
    let at = latin.iter().position(|&x| x == b'@').unwrap();
    for x in [0x80, 0x9F, 0xE9, 0xFF] {
        let mut def = latin.clone();
        def[at] = x;
        assert_eq!(answer(&def).0, 0);
        let mut list = [0; 4];
        let c = char::from(x).to_string();
        assert_eq!(decode_xml(&def, at as u64, 1, &mut list), Ok(2));
        assert_eq!(list[..2], bytes(&c));
    }
    let mut def = latin;
    def[at] = 31;
    refused_bytes(50, at, &def);
}

#[test]
fn bad_characters_elsewhere() {
    // in a value, a comment, a tag, behind a `<`, where tags are due
    refused(50, &single("<value code=\"1¶\u{1}\">a</value>"));
    refused(50, &single("<!-- ¶\u{1}"));
    refused(50, &single("<value ¶\u{1} code=\"1\">a</value>"));
    refused(50, &single("<¶\u{1}"));
    refused(50, &single("</¶\u{1}"));
    refused(50, &single("<value code=\"1\"¶/\u{1}"));
    refused(50, &single("¶\u{1}"));
    refused(50, &single("<!-- x ¶--\u{1}"));
    refused(50, &single("<value code=\"¶&#4\u{1}"));
    refused(50, &single("¶&am\u{1}"));
}

#[test]
fn references() {
    decodes("&lt;&gt;&amp;&apos;&quot;", &bytes("<>&'\""));
    decodes("&#65;&#x41;&#x4a;&#x4A;&#0000000000000000000065;", &bytes("AAJJA"));
    decodes("&#233;&#x10FFFF;&#13;&#10;", &[0xC3, 0xA9, 0xF4, 0x8F, 0xBF, 0xBF, 13, 10]);
    for bad in [
        "¶&",
        "¶&;",
        "¶&lt",
        "¶&LT;",
        "¶&nbsp;",
        "¶&#;",
        "¶&#x;",
        "¶&#X41;",
        "¶&#4a;",
        "¶&#xg;",
        "¶&#0;",
        "¶&#xD800;",
        "¶&#xFFFE;",
        "¶&#1114112;",
        "¶&#99999999999999999999999;",
        "¶& lt;",
        "¶&#65 ;",
        "¶&ltx;",
    ] {
        refused(50, &label(bad));
    }
    let cut = label("&#65");
    let at = cut.find('&').unwrap();
    refused_bytes(50, at, &cut.as_bytes()[..at + 4]);
    let t = table(&whole(&named(1, "type='&#115;ingle'", "a", VALUES).replace("start=\"1\"", "start='&#49;'")));
    assert_eq!(row(&t, 0)[column::START], 1);
}

#[test]
fn comments() {
    decodes("a<!-- x - y -->b<!---->", &bytes("ab"));
    let t = table(&variable("character", "<size>1<!--x-->0</size>").replace("finish=\"9\"", "finish=\"10\""));
    assert_eq!(row(&t, 0)[column::WIDTH], 10);
    refused(50, &label("<!-- ¶-- -->"));
    refused(50, &label("<!-- x ¶--->"));
    refused(50, &label("<!--¶--->"));
    refused(50, &label("¶<!-- x"));
    refused(50, &label("¶<!-x-->"));
    refused(50, &label("¶<!ELEMENT x>"));
    let cut = label("<!-- x --");
    let at = cut.find(" --").unwrap();
    let end = cut.find("</label>").unwrap();
    refused_bytes(50, at + 1, &cut.as_bytes()[..end]);
    refused(51, &label("¶<?pi <!-- ?>"));
    refused(51, &label("¶<![CDATA[x"));
    refused(50, &label("a¶]]>b"));
    decodes("]] >]>", &bytes("]] >]>"));
    decodes("a\r\nb\rc\nd", &bytes("a\nb\nc\nd"));
}

// ---- points 11 to 13: tags

#[test]
fn tags() {
    table(&single("<value\n\tcode = '1'\r>a</value >"));
    for bad in [
        "<value code=\"1\"¶x=\"2\">a</value>",
        "<value code ¶\"1\">a</value>",
        "<value code=¶1>a</value>",
        "<value code ¶>a</value>",
        "<value ¶=\"1\">a</value>",
        "<value ¶1=\"1\">a</value>",
        "<value code=\"1\" ¶/ >a</value>",
        "<value code=\"1¶<\">a</value>",
        "<value code=\"1\" ¶code=\"2\">a</value>",
        "<value code=\"1\" ¶code='x'>a</value>",
        "¶< value code=\"1\">",
        "¶<>",
        "¶</>",
        "¶</ values>",
        "¶<1>",
        "<value code=\"1\">a¶</valu>",
        "<value code=\"1\">a</valuex ¶y>",
        "<value code=\"1\">a</value ¶y>",
    ] {
        refused(50, &single(bad));
    }
    // cut by the end of the file
    let def = single("<value code=\"1\" >a</value>");
    let open = def.find("<value code").unwrap();
    for n in 1.."<value code=\"1\" >".len() {
        refused_bytes(50, open, &def.as_bytes()[..open + n]);
    }
    let n = open + "<value code=\"1\" >a".len();
    refused_bytes(50, n - 1, &def.as_bytes()[..n - 1]);
    refused_bytes(50, n, &def.as_bytes()[..n]);
    for k in 1.."</value>".len() {
        refused_bytes(50, n, &def.as_bytes()[..n + k]);
    }
}

#[test]
fn attributes() {
    refused(51, &single("<value ¶x=\"1\" code=\"1\" x=\"2\">a</value>"));
    refused(51, &single("<value code=\"1\" ¶xmlns=\"1\" y=\"\">a</value>"));
    refused(51, &single("<value code=\"1\" ¶Code=\"2\">a</value>"));
    // 2 before 51, and the first 2 or 50 met
    refused(2, &single("<value x=\"1\"¶>a</value>"));
    refused(2, &single("<value x=\"1\"¶/>"));
    refused(50, &single("<value x=\"1\" ¶<"));
    refused(2, &single("<value code=\"¶\" code=\"1\">a</value>"));
    refused(2, &single("<value code=\"¶ 1\">a</value>"));
    refused(2, &single("<value code=\"¶x\" <"));
    refused(6, &single("<value code=\"¶+1\">a</value>"));
    refused(6, &single("<value code=\"¶1.\">a</value>"));
    refused(6, &single("<value code=\"¶0\">a</value>"));
    refused(6, &quantity("<value code=\"¶1-2\">a</value>"));
    refused(6, &quantity("<value code=\"¶.\">a</value>"));
    refused(2, &quantity("<value code=\"¶- 1\">a</value>"));
    refused(8, &single("<value code=\"¶10000\">a</value>"));
    let tag = |tag: &str| single("<value code=\"1\">a</value>").replace("<variable ident=\"1\" type=\"single\">", tag);
    refused(2, &tag("<variable ident=\"1\" type=\"¶Single\">"));
    refused(2, &tag("<variable ident=\"¶1x\" type=\"single\">"));
    refused(2, &tag("<variable ident=\"¶\" type=\"single\">"));
    refused(2, &tag("<variable ident=\"1\"¶>"));
    refused(2, &tag("<variable type=\"single\" ¶>"));
    refused(2, &tag("<variable ident=\"1\" type=\"single\" use=\"¶key\">"));
    refused(5, &tag("<variable ident=\"¶0\" type=\"single\">"));
    refused(5, &tag("<variable ident=\"¶00001\" type=\"single\" x=\"1\">"));
    refused(2, &tag("<variable ident=\"1\" type=\"single\"¶/>"));
    refused(5, &tag("<variable ident=\"¶0\" type=\"single\"/>"));
    let record = |tag: &str| single("<value code=\"1\">a</value>").replace("<record ident=\"R\">", tag);
    table(&record("<record href=\"x&amp;y\" ident=\"z\">"));
    refused(2, &record("<record ident=\"¶RS\">"));
    refused(2, &record("<record ident=\"¶1\">"));
    refused(2, &record("<record ident=\"¶\u{E9}\">"));
    refused(2, &record("<record¶>"));
}

#[test]
fn versions() {
    let version =
        |tag: &str| single("<value code=\"1\">a</value>").replace("<sss version=\"1.2\" languages=\"en fr\">", tag);
    table(&version("<sss version=\"1.1\">"));
    table(&version("<sss version='1.&#50;'>"));
    refused(4, &version("<sss version=\"¶1.3\">"));
    refused(4, &version("<sss version=\"¶\">"));
    refused(4, &version("<sss x=\"1\" version=\"¶ 1.2\">"));
    refused(2, &version("<sss¶>"));
    refused(2, &version("<sss version=\"9\" options=\"¶standard\">"));
    refused(51, &version("<sss version=\"1.1\" ¶languages=\"en\">"));
    refused(51, &version("<sss ¶x=\"1\" version=\"1.1\" languages=\"en\">"));
    refused(51, &version("<sss version=\"1.1\" ¶languages=\"en\" x=\"\">"));
    refused(2, &version("<sss version=\"1.2\"¶/>"));
    let old = |s: String| s.replace("<sss version=\"1.2\" languages=\"en fr\">", "<sss version=\"1.1\">");
    refused(51, &old(label("¶<text xml:lang=\"en\">x</text>")));
    refused(51, &old(whole(&named(1, "type=\"quantity\" ¶use=\"serial\"", "a", VALUES))));
    refused(51, &old(whole(&logical(1, "a", "¶<filter>b</filter>"))));
    refused(51, &old(label("x")).replace("<record", "¶<name>x</name><record"));
    refused(51, &old(label("x")).replace("<record", "¶<version>x</version><record"));
    refused(51, &old(label("x")).replace("ident=\"R\"", "ident=\"R\" ¶href=\"x\""));
    table(&old(label("x")).replace("<record", "<title>x<br/></title><record"));
    refused(51, &version("<sss version=\"1.2\">").replace("<label>b", "<label>¶<text xml:lang=\"en\">x</text>"));
}

// ---- points 13 to 16: order and texts

#[test]
fn order() {
    let one = single("<value code=\"1\">a</value>");
    let sss = one.replace("<survey>", "<date/><time>x</time><origin></origin><user>&lt;</user><survey>");
    table(&sss);
    let survey = "<survey><name>n</name><version>3.1</version><title>t<br/></title><record";
    table(&one.replace("<survey><record", survey));
    refused(51, &sss.replace("<date/><time>x</time>", "<time>x</time>¶<date/>"));
    refused(51, &sss.replace("<user>&lt;</user>", "<user>&lt;</user>¶<user/>"));
    refused(51, &one.replace("<survey><record", &survey.replace("<title>", "¶<name/><title>")));
    refused(51, &one.replace("<name>a</name>", "").replace("<label>", "¶<label>"));
    refused(51, &one.replace("<label>", "¶<name>x</name><label>"));
    refused(51, &variable("logical", &format!("¶{VALUES}")));
    refused(51, &variable("character", &format!("¶{VALUES}")));
    refused(51, &variable("single", "¶<size>1</size>"));
    refused(51, &variable("single", &format!("¶<spread subfields=\"1\"/>{VALUES}")));
    refused(51, &variable("multiple", &format!("{VALUES}¶<spread subfields=\"1\"/>")));
    refused(51, &single("<value code=\"1\">a</value>¶<range from=\"1\" to=\"2\"/>"));
    refused(51, &single("<range from=\"1\" to=\"2\"/>¶<range from=\"1\" to=\"2\"/>"));
    refused(50, &single("<range from=\"1\" to=\"2\"/><range from=\"1\" ¶<"));
    refused(2, &variable("single", "<values>¶</values>"));
    refused(2, &variable("single", "<values¶/>"));
    refused(51, &variable("single", "<values ¶x=\"1\"/>"));
    refused(2, &variable("single", "¶"));
    refused(2, &whole("¶"));
    refused(50, &variable("single", "¶</record>"));
    refused(50, &variable("single", "</variable ¶x>"));
    refused(2, &single("¶text"));
    refused(2, &single("¶]]>"));
    refused(2, &single("¶&lt;"));
    refused(50, &single("¶&x;"));
    refused(51, &single("¶<?x?>"));
    refused(51, &single("¶<![CDATA["));
    refused(2, &single("<value code=\"1\">a</value>¶text"));
    refused(50, &single("<value code=\"1\">a</value>¶</variable>"));
    // an empty pair
    let pair = |s: &str| one.replace("<position start=\"1\" finish=\"9\"/>", s);
    table(&pair("<position start=\"1\" finish=\"9\"> <!-- x --></position>"));
    refused(2, &pair("<position start=\"1\" finish=\"9\"> ¶x</position>"));
    refused(51, &pair("<position start=\"1\" finish=\"9\"> ¶<x/></position>"));
    refused(7, &pair("<position start=\"¶0\" finish=\"9\"> <x/></position>"));
    refused(50, &pair("<position start=\"1\" finish=\"9\"> ¶</pos></position>"));
}

#[test]
fn texts() {
    decodes("a<br/>b<br></br>c<br >\n<!-- x --></br>d", &[97, BREAK, 98, BREAK, 99, BREAK, 100]);
    decodes(" a <text xml:lang=\"fr\">b<br/>c</text>-<text xml:lang='x'/> d ", &bytes(" a - d "));
    refused(51, &label("¶<b>x</b>"));
    refused(50, &label("<b ¶<"));
    refused(51, &label("<text xml:lang=\"a\">¶<text xml:lang=\"b\">x</text></text>"));
    refused(2, &label("<text¶>x</text>"));
    refused(51, &label("<br ¶x=\"1\"/>"));
    refused(51, &label("<text ¶x=\"\" xml:lang=\"\">x</text>"));
    // an attribute that isn't known waits for the whole element
    refused(50, &label("<br x=\"1\"/>¶&x;"));
    refused(50, &label("<br x=\"1\"/>¶</x>"));
    refused(2, &label("<br> ¶x</br>"));
    refused(51, &label("<br>¶<br/></br>"));
    refused(51, &label("x").replace("<name>a", "<name>a¶<br/>"));
    refused(51, &variable("character", "<size>9¶<br/></size>"));
    refused(6, &single("<value code=\"¶+1\">a<x/></value>"));
    refused(51, &single("<value code=\"1\">a¶<x/></value>"));
    let t = table(&label("<!-- x -->y"));
    let def = label("<!-- x -->y");
    assert_eq!(row(&t, 0)[column::LABEL] as usize, def.find("<!-- x").unwrap());
    assert_eq!(row(&t, 0)[column::LABEL_LENGTH], 11);
    let t = table(&label("").replace("<label></label>", "<label />"));
    assert_eq!(row(&t, 0)[column::LABEL_LENGTH], 0);
}

#[test]
fn sizes_positions_spreads() {
    let size = |s: &str| variable("character", &format!("<size>{s}</size>"));
    table(&size("9"));
    table(&size("&#x39;"));
    refused(2, &size("¶ 9"));
    refused(2, &size("¶"));
    refused(2, &size("¶9x"));
    refused(7, &size("¶0"));
    refused(8, &size("¶4097"));
    refused(50, &size("x").replace("</size>", "</size ¶y>"));
    refused(7, &size("10").replace("start=\"1\"", "start=\"¶1\""));
    refused(2, &variable("character", "<size x=\"1\">¶x</size>"));
    let pos = |s: &str| single("<value code=\"1\">a</value>").replace("<position start=\"1\" finish=\"9\"/>", s);
    refused(7, &pos("<position start=\"¶0\"/>"));
    refused(7, &pos("<position finish=\"¶1\" start=\"2\"/>"));
    refused(7, &pos("<position start=\"99999999999999999999\" finish=\"¶99999999999999999998\"/>"));
    refused(8, &pos("<position start=\"¶16385\" finish=\"99999\"/>"));
    refused(8, &pos("<position finish=\"¶99999\" start=\"16385\"/>"));
    refused(2, &pos("<position finish=\"9\"¶/>"));
    refused(50, &pos("<position start=\"1\" ¶start=\"1\"/>"));
    let spread = |s: &str| variable("multiple", &format!("{s}{VALUES}"));
    table(&spread("<spread subfields=\"3\"/>"));
    refused(7, &spread("<spread subfields=\"¶0\"/>"));
    refused(7, &spread("<spread subfields=\"¶4\"/>"));
    refused(7, &spread("<spread subfields=\"2\" width=\"¶0\"/>"));
    refused(7, &spread("<spread width=\"¶0\" subfields=\"0\"/>"));
    refused(7, &spread("<spread subfields=\"2\" width=\"5\"/>").replace("start=\"1\"", "start=\"¶1\""));
    refused(2, &spread("<spread width=\"1\"¶/>"));
}

#[test]
fn blocks() {
    let t = table(&quantity("<range from=\"-1.00\" to=\"99.99\"/><value code=\"1.50\">x</value>"));
    assert_eq!(row(&t, 0)[4..12], [5, 2, 1, 0, 0, 1, -100, 9999]);
    assert_eq!(t[26], 150);
    // C-13, "XML blocks alike": point code 2 where every number is written with no digit before the point.
    for (block, width, point) in [
        ("<range from=\".00\" to=\".99\"/>", 3, 2),
        ("<range from=\"-.50\" to=\".50\"/><value code=\"&#46;99\"/>", 4, 2),
        ("<value code=\".50\"/><value code=\"0.70\"/>", 4, 1),
        ("<range from=\".00\" to=\".99\"/><value code=\"9.99\"/>", 4, 1),
        ("<value code=\"1.\"/>", 2, 1),
    ] {
        let t = table(&quantity(block));
        assert_eq!([row(&t, 0)[column::WIDTH], row(&t, 0)[column::POINT]], [width, point], "{block}");
    }
    refused(6, &quantity("<range from=\"1\" to=\"¶2.0\"/>"));
    refused(6, &quantity("<range from=\"2\" to=\"¶1\"/>"));
    refused(6, &quantity("<range to=\"¶x1\" from=\"2\"/>").replace("x1", "+1"));
    refused(6, &quantity("<range to=\"¶+1\" from=\"+2\"/>"));
    refused(6, &quantity("<range from=\"¶+1\" to=\"+2\"/>"));
    refused(8, &quantity("<range to=\"¶1000000000000000\" from=\"1000000000000000\"/>"));
    refused(6, &single("<value code=\"1\"/><value code=\"¶01\"/>"));
    refused(6, &quantity("<value code=\"1.0\"/><value code=\"¶1\"/>"));
    refused(6, &quantity("<value code=\"0\"/><value code=\"¶-0\"/>"));
    let many: String = (0..4096).map(|n| format!("<value code=\"{n}\"/>")).collect();
    table(&quantity(&many));
    refused(8, &quantity(&format!("{many}<value code=\"¶4096\"/>")));
    refused(6, &quantity(&format!("{many}<value code=\"¶5\"/>")));
    let all = |n: u32| (1..=n).map(|i| logical(i, "x", "")).collect::<String>();
    table(&whole(&all(512)));
    refused(8, &whole(&format!("{}{}", all(512), logical(513, "x", "").replace("513", "¶513"))));
    refused(5, &whole(&format!("{}{}", all(512), logical(7, "x", "").replace("\"7", "\"¶7"))));
}

// ---- point 17: use and filter

#[test]
fn uses() {
    let quantity = |n, role: &str| named(n, &format!("type=\"quantity\" use=\"{role}\""), "q", VALUES);
    let t = table(&whole(&format!("{}{}", quantity(1, "serial"), quantity(2, "weight"))));
    assert_eq!([row(&t, 0)[column::USE], row(&t, 1)[column::USE]], [1, 2]);
    table(&whole(&named(1, "type=\"character\" use=\"serial\"", "q", "<size>1</size>")));
    refused(52, &whole(&format!("{}{}", quantity(1, "weight"), quantity(2, "¶weight"))));
    refused(52, &whole(&format!("{}{}", quantity(1, "serial"), quantity(2, "¶serial"))));
    refused(52, &whole(&named(1, "type=\"character\" use=\"¶weight\"", "q", "<size>1</size>")));
    refused(52, &whole(&named(1, "type=\"single\" use=\"¶serial\"", "q", VALUES)));
    refused(51, &whole(&named(1, "¶x=\"1\" type=\"single\" use=\"serial\"", "q", VALUES)));
}

#[test]
fn filters() {
    let three = |name: &str, filter: &str| {
        format!(
            "{}{}{}",
            logical(1, "A", ""),
            logical(2, "b", ""),
            logical(3, name, &format!("<filter>{filter}</filter>"))
        )
    };
    let t = table(&whole(&three("c", "b")));
    assert_eq!(row(&t, 2)[column::FILTER], 2);
    let t = table(&whole(&three("c", "&#98;<!-- x -->")));
    assert_eq!(row(&t, 2)[column::FILTER], 2);
    refused(52, &whole(&three("c", "¶a")));
    refused(52, &whole(&three("c", "¶c")));
    refused(52, &whole(&three("b", "¶b")));
    refused(52, &whole(&three("c", "¶d")));
    refused(52, &whole(&three("c", "¶b ")));
    let standard = |s: &str| whole(s).replace("languages", "options=\"standardnames\" languages");
    assert_eq!(row(&table(&standard(&three("c", "a"))), 2)[column::FILTER], 1);
    let single = named(1, "type=\"single\"", "s", VALUES);
    refused(52, &whole(&format!("{single}{}", logical(2, "x", "<filter>¶s</filter>"))));
    let weight = named(4, "type=\"quantity\" use=\"weight\"", "w", &format!("<filter>¶A</filter>{VALUES}"));
    refused(52, &whole(&format!("{}{weight}", three("c", "b"))));
    // "must be unique" holds on
    refused(52, &whole(&format!("{}{}", three("c", "b"), logical(4, "¶b", ""))));
    table(&whole(&format!("{}{}", three("c", "b"), logical(4, "A", ""))));
    // a filtered logical may be a filter again
    let t = table(&whole(&format!("{}{}", three("c", "b"), logical(4, "e", "<filter>c</filter>"))));
    assert_eq!(row(&t, 3)[column::FILTER], 3);
    refused(51, &whole(&logical(1, "a", "<filter>x¶<y/></filter>")));
}

#[test]
fn standard_names() {
    let standard = |names: &[&str]| {
        let all: String = names.iter().enumerate().map(|(i, n)| logical(i as u32 + 1, n, "")).collect();
        whole(&all).replace("languages", "options=\"standardnames\" languages")
    };
    table(&standard(&["a1", "Q&#49;", "abcdefgh"]));
    for bad in ["¶", "¶1a", "¶abcdefghi", "¶a b", "¶a&#233;", "¶a\n"] {
        refused(9, &standard(&["x", bad]));
    }
    refused(9, &standard(&["a", "b", "¶A"]));
}

#[test]
fn decoding_stretches() {
    let def = label("a<b");
    let decode = |s: &str| {
        let def = format!("{HEAD}{s}");
        decode_xml(def.as_bytes(), HEAD.len() as u64, s.len() as u64, &mut [0; 64])
    };
    assert_eq!(decode_xml(def.as_bytes(), def.len() as u64, 0, &mut []), Ok(0));
    assert_eq!(decode_xml(def.as_bytes(), def.len() as u64, 1, &mut []), Err(3));
    assert_eq!(decode("ab"), Ok(2));
    assert_eq!(decode("<br/><text xml:lang=''>x</text>"), Ok(1));
    for bad in [
        "a<b",
        "&x",
        "</label>",
        "<text>x</text>",
        "<text xml:lang=\"x\">x",
        "<br x=\"1\"/>",
        "]]>",
        "<!-- x",
        "<label>",
    ] {
        assert_eq!(decode(bad), Err(3), "{bad}");
    }
    let def = format!("{HEAD}abc");
    let mut list = [7; 2];
    assert_eq!(decode_xml(def.as_bytes(), HEAD.len() as u64, 3, &mut list), Err(25));
    assert_eq!(list, [7, 7]);
}

// ---- a further witness: what is accepted is well-formed XML to another parser

/// Cases that are near to sound files: every file of these tests that was read, bytes changed, dropped, doubled.
fn damaged(seed: u64, def: &[u8]) -> Vec<u8> {
    let mut state = seed.wrapping_mul(0x9E37_79B9_7F4A_7C15) | 1;
    let mut next = |n: usize| {
        state ^= state << 13;
        state ^= state >> 7;
        state ^= state << 17;
        (state >> 11) as usize % n
    };
    let alphabet = b"<>&;#x/=\"' \t\r\n-!?[]0123456789.+abrtelsv\x80\xC3\xA9\x01";
    let mut d = def.to_vec();
    for _ in 0..1 + next(3) {
        let at = next(d.len());
        match next(4) {
            0 => d[at] = alphabet[next(alphabet.len())],
            1 => drop(d.remove(at)),
            2 => d.insert(at, alphabet[next(alphabet.len())]),
            _ => {
                let end = d.len().min(at + next(24));
                let piece = d[at..end].to_vec();
                let to = next(d.len());
                d.splice(to..to, piece);
            }
        }
    }
    d
}

/// Sound files to damage.
fn bases() -> [String; 4] {
    let rich = label("x &#233;<br/><!-- - --><text xml:lang='fr'>y<br></br></text> ]] z")
        .replace("<survey>", "<date>1</date><user/><survey><name>n</name><title>t<br/></title>");
    [
        EXAMPLE.to_string(),
        rich,
        quantity("<range from=\"-1.00\" to='99.99'/><value code=\"1.50\">x</value>"),
        declared("<?xml version='1.0' encoding=\"ISO-8859-1\" standalone='no'?><!DOCTYPE sss SYSTEM 'x' >"),
    ]
}

/// What xmllint says of each file: whether it is well formed.
fn well_formed_to_xmllint(files: &[Vec<u8>]) -> Vec<bool> {
    let folder = std::env::temp_dir().join(format!("zarfolin-xml-{}-{}", std::process::id(), files.len()));
    std::fs::create_dir_all(&folder).unwrap();
    for (i, def) in files.iter().enumerate() {
        std::fs::write(folder.join(format!("{i}.xml")), def).unwrap();
    }
    let mut good = vec![true; files.len()];
    for first in (0..files.len()).step_by(500) {
        let names = (first..files.len().min(first + 500)).map(|i| format!("{i}.xml"));
        let run = std::process::Command::new("xmllint")
            .args(["--noout", "--nonet"])
            .args(names)
            .current_dir(&folder)
            .output()
            .expect("xmllint is not there");
        for line in String::from_utf8_lossy(&run.stderr).lines() {
            let said = line.split_once(".xml:").filter(|(_, rest)| rest.contains("error"));
            if let Some(i) = said.and_then(|(name, _)| name.parse::<usize>().ok()) {
                good[i] = false;
            }
        }
    }
    std::fs::remove_dir_all(&folder).unwrap();
    good
}

/// Needs xmllint (Debian: libxml2-utils): `cargo test --release -p zarfolin-plain --test xml -- --ignored`.
#[test]
#[ignore = "needs xmllint"]
fn accepted_is_well_formed() {
    let bases = bases();
    let all = (0..60_000u64).map(|seed| damaged(seed, bases[seed as usize % bases.len()].as_bytes()));
    let accepted: Vec<_> = all.filter(|def| is_xml(def) && answer(def).0 == 0).collect();
    let good = well_formed_to_xmllint(&accepted);
    println!("{} files accepted, put to xmllint", accepted.len());
    for (def, _) in accepted.iter().zip(&good).filter(|(_, good)| !**good) {
        println!("{}", String::from_utf8_lossy(def));
    }
    assert!(accepted.len() > 2_000, "too few cases: {}", accepted.len());
    assert!(good.iter().all(|&good| good));
}

/// The other way round: from the root on, what is refused with 50 is not well formed there either. Before the root it may be: 50 is
/// also said of encodings that we don't read and of `<!DOCTYPE sssx` (words match as prefixes), and xmllint lets `<!DOCTYPEsss` pass.
#[test]
#[ignore = "needs xmllint"]
fn refused_with_50_is_not_well_formed() {
    let bases = bases();
    let all = (100_000..112_000u64).map(|seed| damaged(seed, bases[seed as usize % bases.len()].as_bytes()));
    let behind = |def: &[u8], place: usize| def[..place].windows(4).any(|w| w == b"<sss");
    let refused: Vec<_> =
        all.filter(|def| is_xml(def) && matches!(answer(def), (50, place) if behind(def, place))).collect();
    let good = well_formed_to_xmllint(&refused);
    println!("{} files refused with 50, put to xmllint", refused.len());
    let mut wrong = 0;
    for (def, _) in refused.iter().zip(&good).filter(|(_, good)| **good) {
        println!("{:?}\n{}", answer(def), String::from_utf8_lossy(def));
        wrong += 1;
    }
    assert!(refused.len() > 2_000, "too few cases: {}", refused.len());
    assert_eq!(wrong, 0);
}
