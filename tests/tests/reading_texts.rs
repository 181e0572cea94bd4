//! The reader: grouping, counting, places of bad texts by three methods that must agree,
//! and the limits.

use solver::calls::{solve_rule, try_rule, Refusal};
use solver::chance::Chance;
use solver::listing::buffers;
use solver::meaning::satisfies;
use solver::reader::{read, read_plain};
use solver::viable::{accepts, longest_viable};
use solver::wording::Wording;
use solver::Mode::Fair;

/// A text with every grouping written out.
fn grouped(text: &str) -> String {
    let tree = read(text.as_bytes(), Wording::rule(4, 4)).unwrap();
    fn show(tree: &solver::tree::Tree, node: usize) -> String {
        let node = &tree.nodes[node];
        let mark = node.mark as char;
        match node.kids[..] {
            [] => mark.to_string(),
            [kid] => format!("{mark}{}", show(tree, kid)),
            [left, right] => format!("({}{mark}{})", show(tree, left), show(tree, right)),
            _ => unreachable!(),
        }
    }
    show(&tree, tree.root)
}

#[test]
fn grouping() {
    assert_eq!(grouped("aUbRc"), "(aU(bRc))");
    assert_eq!(grouped("aRbUc"), "(aR(bUc))");
    assert_eq!(grouped("a>b>c"), "(a>(b>c))");
    assert_eq!(grouped("!aUb"), "(!aUb)");
    assert_eq!(grouped("XaUFb&c|d>p"), "((((XaUFb)&c)|d)>p)");
    assert_eq!(grouped("a>b|c&dUp"), "(a>(b|(c&(dUp))))");
    assert_eq!(grouped(" ! ( a > b ) & ( ( c ) ) "), "(!(a>b)&c)");
    assert_eq!(grouped("GF!XNa"), "GF!XNa");
}

#[test]
fn counting() {
    let tree = read(b" ( a U X b ) & 1", Wording::rule(4, 4)).unwrap();
    assert_eq!((tree.count(), tree.operators().len()), (6, 2));
    assert_eq!(tree.nodes[tree.operators()[0]].mark, b'U');
}

/// The place of a bad text with i inputs and o outputs.
fn place(i: usize, o: usize, text: &str) -> Option<usize> {
    read(text.as_bytes(), Wording::rule(i, o)).err()
}

#[test]
fn places() {
    assert_eq!(place(1, 1, ""), Some(0));
    assert_eq!(place(1, 1, "   "), Some(3));
    assert_eq!(place(1, 1, "a"), None);
    assert_eq!(place(0, 0, "a"), Some(0));
    assert_eq!(place(0, 0, " (1"), Some(3));
    assert_eq!(place(1, 1, "ab"), Some(1));
    assert_eq!(place(2, 1, "ab"), Some(1));
    assert_eq!(place(1, 1, "a&b"), Some(2));
    assert_eq!(place(1, 1, "a)"), Some(1));
    assert_eq!(place(1, 1, "(a))"), Some(3));
    assert_eq!(place(1, 1, "()"), Some(1));
    assert_eq!(place(1, 1, "a!"), Some(1));
    assert_eq!(place(1, 1, "!"), Some(1));
    assert_eq!(place(1, 1, "a U"), Some(3));
    assert_eq!(place(1, 1, "a\tUp"), Some(1));
    assert_eq!(place(1, 1, "a a"), Some(2));
    let condition = |text: &[u8]| read(text, Wording::condition(2)).err();
    assert_eq!(condition(b"a&Xb"), Some(2));
    assert_eq!(condition(b"aUb"), Some(1));
    assert_eq!(condition(b"a&p"), Some(2));
    assert_eq!(condition(b"a&c"), Some(2));
    assert_eq!(condition(b"!(a>b)|0"), None);
}

/// Whether a prefix can begin a text, by trying endings: nothing or a constant, then some `)`.
fn can_begin(prefix: &[u8], wording: Wording) -> bool {
    (0..=prefix.len()).any(|count| {
        [&b""[..], b"1"].iter().any(|middle| {
            let mut whole = [prefix, middle].concat();
            whole.resize(whole.len() + count, b')');
            read_plain(&whole, wording).is_some()
        })
    })
}

/// The place by trying every prefix.
fn place_by_trying(text: &[u8], wording: Wording) -> usize {
    (1..=text.len()).find(|&k| !can_begin(&text[..k], wording)).map_or(text.len(), |k| k - 1)
}

#[test]
fn three_methods_agree() {
    let mut chance = Chance::new(1, 2, 3);
    for _ in 0..20_000 {
        let wording = Wording { inputs: chance.below(3), outputs: chance.below(3), temporal: !chance.one_in(3) };
        let length = chance.below(14);
        let text: Vec<u8> = (0..length).map(|_| chance.pick(b"aabpq01!XUR&|>(()) Z")).collect();
        let viable = longest_viable(&text, wording);
        assert_eq!(viable, place_by_trying(&text, wording), "{text:?}");
        assert_eq!(read_plain(&text, wording).is_some(), accepts(&text, wording), "{text:?}");
    }
}

#[test]
fn limits_on_nodes_operators_and_length() {
    let refusal = |number| Err(Refusal::plain(number));
    let chain = |nodes: usize| format!("{}a", "!".repeat(nodes - 1)).into_bytes();
    assert!(try_rule(1, 1, &chain(64), &[1]).is_ok());
    assert_eq!(try_rule(1, 1, &chain(65), &[1]), refusal(5));
    assert_eq!(try_rule(1, 1, b"FFFFFFa", &[1]), refusal(6));
    assert!(try_rule(1, 1, b"GFXNaUa", &[1]).is_ok());
    let blanks = |count: usize| [vec![b' '; count - 1], vec![b'a']].concat();
    assert!(try_rule(1, 1, &blanks(255), &[1]).is_ok());
    assert_eq!(try_rule(1, 1, &blanks(256), &[1]), refusal(2));
    let parentheses = [vec![b'('; 127], vec![b'a'], vec![b')'; 127]].concat();
    assert!(try_rule(1, 1, &parentheses, &[1]).is_ok());
    let solve = |rule: &[u8], condition: &[u8]| solve_rule(1, 1, Fair, rule, condition, &mut buffers(1, 1));
    assert!(solve(b"Fp", &chain(64)).is_ok());
    assert_eq!(solve(b"Fp", &chain(65)), Err(Refusal::plain(8)));
    assert_eq!(solve(b"Fp", &blanks(256)), Err(Refusal::plain(2)));
    assert_eq!(solve(b"FFFFFFp", b"p"), Err(Refusal::plain(6)));
    assert_eq!(solve(&chain(65), b"p"), Err(Refusal::plain(5)));
    assert_eq!(solve(b"q", b"p"), Err(Refusal::placed(4, 0)));
    assert_eq!(solve(b"p", b"!p"), Err(Refusal::placed(7, 1)));
}

#[test]
fn meaning_of_small_rules() {
    let holds = |rule: &[u8], list: &[u8]| satisfies(&read(rule, Wording::rule(1, 1)).unwrap(), 1, list);
    // Letters with i = o = 1: 0 neither, 1 a, 2 p, 3 both.
    assert!(holds(b"aUp", &[1, 1, 2]) && holds(b"aUp", &[2]) && !holds(b"aUp", &[1, 0, 2]) && !holds(b"aUp", &[1, 1]));
    assert!(holds(b"aRp", &[2, 2]) && holds(b"aRp", &[2, 3, 0]) && !holds(b"aRp", &[2, 1]));
    assert!(holds(b"Fa", &[0, 0, 1]) && !holds(b"Fa", &[0, 2]));
    assert!(holds(b"Ga", &[1, 3]) && !holds(b"Ga", &[1, 2]));
    assert!(holds(b"0>1>0", &[0]) && !holds(b"(0>1)>0", &[0]));
}
