//! Paper 5's promise to readers of an accepted module, tested on words alone: no id carries
//! a decoration twice, and no member. What drops the Rust's repeats has no part in it.

const OP_DECORATE: u32 = 71;
const OP_MEMBER_DECORATE: u32 = 72;
const FRONT: usize = 5;

/// What is decorated, by opcode, id and member, and with which number.
type Mark = (u32, u32, u32, u32);

/// The first mark that a module carries more than once, if there is one. Words that are no
/// instructions end the search: they are another's to report.
pub fn repeat_in(module: &[u32]) -> Option<String> {
    let mut marks: Vec<Mark> = Vec::new();
    let mut at = FRONT;
    while let Some(first) = module.get(at) {
        let end = at + (first >> 16) as usize;
        match (first & 0xffff, module.get(at + 1..end)) {
            (_, None) => break,
            (OP_DECORATE, Some(&[id, number, ..])) => marks.push((OP_DECORATE, id, 0, number)),
            (OP_MEMBER_DECORATE, Some(&[id, member, number, ..])) => {
                marks.push((OP_MEMBER_DECORATE, id, member, number))
            }
            _ => {}
        }
        at = end;
    }
    marks.sort();
    let twice = marks.windows(2).find(|two| two[0] == two[1])?;
    Some(match twice[0] {
        (OP_DECORATE, id, _, number) => format!("id {id} carries decoration {number} twice"),
        (_, id, member, number) => {
            format!("member {member} of id {id} carries decoration {number} twice")
        }
    })
}
