//! Paper 3 of document 02: words listed instruction by instruction, and a list joined to
//! words again. How many words an instruction has, and which of them are its result type and
//! its result id, is the SPIR-V Specification's, for the opcodes that Declare writes.

use super::*;

/// Operands behind those that are always there.
#[derive(Clone, Copy, PartialEq, Eq)]
enum More {
    Nothing,
    OneAtMost,
    AnyNumber,
}
use More::*;

/// An instruction's words behind the first one.
#[derive(Clone, Copy)]
struct Layout {
    opcode: u16,
    /// Whether a result type comes first,
    typed: bool,
    /// and a result id behind it.
    declares: bool,
    /// Words of operands that are always there.
    operands: usize,
    more: More,
}

const fn plain(opcode: u16, operands: usize, more: More) -> Layout {
    Layout { opcode, typed: false, declares: false, operands, more }
}

const fn a_type(opcode: u16, operands: usize, more: More) -> Layout {
    Layout { opcode, typed: false, declares: true, operands, more }
}

const fn a_value(opcode: u16, operands: usize, more: More) -> Layout {
    Layout { opcode, typed: true, declares: true, operands, more }
}

/// Every opcode that Declare writes. A name is a string of one word or more; members, parts
/// and parameters are lists; a literal of 64 bits has a second word; a variable may have an
/// initializer, and a decoration a number.
const WRITTEN: [Layout; 26] = [
    plain(op::CAPABILITY, 1, Nothing),
    plain(op::NAME, 2, AnyNumber),            // target, string
    plain(op::MEMBER_NAME, 3, AnyNumber),     // struct, member, string
    plain(op::DECORATE, 2, OneAtMost),        // target, decoration
    plain(op::MEMBER_DECORATE, 3, OneAtMost), // struct, member, decoration
    a_type(op::TYPE_VOID, 0, Nothing),
    a_type(op::TYPE_BOOL, 0, Nothing),
    a_type(op::TYPE_INT, 2, Nothing),    // width, signedness
    a_type(op::TYPE_FLOAT, 1, Nothing),  // width
    a_type(op::TYPE_VECTOR, 2, Nothing), // component type, count
    a_type(op::TYPE_MATRIX, 2, Nothing), // column type, count
    a_type(op::TYPE_IMAGE, 7, Nothing),  // type, dim, depth, arrayed, multi, sampled, format
    a_type(op::TYPE_SAMPLER, 0, Nothing),
    a_type(op::TYPE_ARRAY, 2, Nothing), // element type, length
    a_type(op::TYPE_RUNTIME_ARRAY, 1, Nothing), // element type
    a_type(op::TYPE_STRUCT, 0, AnyNumber), // members
    a_type(op::TYPE_POINTER, 2, Nothing), // class, type
    a_type(op::TYPE_FUNCTION, 1, AnyNumber), // return type, parameters
    a_type(op::TYPE_RAY_QUERY, 0, Nothing),
    a_type(op::TYPE_ACCELERATION_STRUCTURE, 0, Nothing),
    a_value(op::CONSTANT_TRUE, 0, Nothing),
    a_value(op::CONSTANT_FALSE, 0, Nothing),
    a_value(op::CONSTANT, 1, OneAtMost),           // value
    a_value(op::CONSTANT_COMPOSITE, 0, AnyNumber), // parts
    a_value(op::CONSTANT_NULL, 0, Nothing),
    a_value(op::VARIABLE, 1, OneAtMost), // class
];

/// Opcodes of the Specification that Declare does not write; only for faults.
const NOP: u16 = 0;
const MEMORY_MODEL: u16 = 14;
const TYPE_SAMPLED_IMAGE: u16 = 27;
const SPEC_CONSTANT: u16 = 50;

fn layout_of(opcode: u16) -> Option<Layout> {
    WRITTEN.into_iter().find(|layout| layout.opcode == opcode)
}

const MAGIC: u32 = 0x0723_0203;
const VERSION: u32 = 0x0001_0300;
/// Words of a header.
const FRONT: usize = 5;

/// The operation: lists words into a second buffer and answers the list's length, or the
/// number of a refusal.
pub fn list(words: &[u32], out: &mut [u32], fault: Option<Fault>) -> Result<usize, u8> {
    let lister = Lister { fault };
    let room = out.len();
    if lister.has(Fault::ListShortFirst) && room < words.len() {
        return Err(16);
    }
    let mut whole = Vec::new();
    let judged = lister.whole(words, room, &mut whole);
    let length = whole.len();
    let mut put = |count: usize| out[..count].copy_from_slice(&whole[..count]);
    if let Err(number) = judged {
        let leaves = match number {
            18 => lister.has(Fault::ListFrontLeft),
            _ => lister.has(Fault::ListPartLeft),
        };
        if leaves {
            put(length.min(room));
        }
        return Err(number);
    }
    let fits = match fault {
        Some(Fault::ListOneShortTaken) => length <= room + 1,
        Some(Fault::ListExactRefused) => length < room,
        Some(Fault::ListShortByWords) => words.len() <= room,
        _ => length <= room,
    };
    if !fits {
        if lister.has(Fault::ListShortWritten) {
            put(room);
        }
        return Err(16);
    }
    put(length.min(room));
    if lister.has(Fault::ListPastCleared) && length < room {
        out[length] = 0;
    }
    if lister.has(Fault::ListRestCleared) && length < room {
        out[room - 1] = 0;
    }
    Ok(if lister.has(Fault::ListAnswersWords) { words.len() } else { length })
}

struct Lister {
    fault: Option<Fault>,
}

impl Lister {
    fn has(&self, fault: Fault) -> bool {
        self.fault == Some(fault)
    }

    /// The whole list, or the number of the first test that fails; what was listed before
    /// that stands in `out`.
    fn whole(&self, words: &[u32], room: usize, out: &mut Vec<u32>) -> Result<(), u8> {
        out.extend(words.iter().take(FRONT));
        if !self.front_fits(words) {
            return Err(18);
        }
        match self.fault {
            Some(Fault::ListWithoutFront) => out.clear(),
            Some(Fault::ListFrontWithoutLast) => out.truncate(FRONT - 1),
            _ => {}
        }
        let (mut at, mut before) = (FRONT, Vec::new());
        if self.has(Fault::ListCountsFirst) && !self.counts_fit(words) {
            return Err(19);
        }
        while at < words.len() {
            let (count, opcode) = ((words[at] >> 16) as usize, words[at] as u16);
            let number = self.instruction_test(opcode, count, words.len() - at);
            if number != 0 {
                return Err(number);
            }
            let end = words.len().min(at + count.max(1));
            let body = &words[at + 1..end];
            let last = end == words.len() && self.has(Fault::ListWithoutLast);
            let unknown = layout_of(opcode).is_none() && self.has(Fault::ListUnknownSkipped);
            if !last && !unknown {
                self.put(words[at], body, out);
            }
            if !self.id_fits(opcode, body, words[3], &mut before) {
                return Err(20);
            }
            if self.has(Fault::ListShortOnTheWay) && out.len() > room {
                return Err(16);
            }
            at = end;
        }
        Ok(())
    }

    /// "18 when there are fewer than five words, or the magic, version or last header word
    /// is not document 01's."
    fn front_fits(&self, words: &[u32]) -> bool {
        let few = self.has(Fault::ListFewWords);
        let word = |place: usize, due: u32| words.get(place).map_or(few, |&w| w == due);
        let magic = match self.fault {
            Some(Fault::ListMagicUnjudged) => true,
            Some(Fault::ListMagicSwapped) => word(0, MAGIC) || word(0, MAGIC.swap_bytes()),
            _ => word(0, MAGIC),
        };
        let version = match self.fault {
            Some(Fault::ListVersionUnjudged) => true,
            Some(Fault::ListVersionBefore) => words.get(1).map_or(few, |&w| w <= VERSION),
            _ => word(1, VERSION),
        };
        let generator = word(2, 28) || !self.has(Fault::ListGeneratorJudged);
        let bound = words.get(3).is_some_and(|&w| w > 0 && w as u64 <= MAX_BOUND)
            || !self.has(Fault::ListBoundJudged);
        let last = word(4, 0) || self.has(Fault::ListLastUnjudged);
        let enough = match self.fault {
            Some(Fault::ListFewWords) => true,
            Some(Fault::ListFrontAlone) => words.len() > FRONT,
            _ => words.len() >= FRONT,
        };
        enough && magic && version && generator && bound && last
    }

    /// "19 when an instruction's word count is 0 or passes the end", then "20 when an opcode
    /// is none that Declare writes, or the count none that it writes for that opcode".
    fn instruction_test(&self, opcode: u16, count: usize, left: usize) -> u8 {
        let passes = match self.fault {
            Some(Fault::ListEndUnjudged) => false,
            Some(Fault::ListEndByOne) => count > left + 1,
            Some(Fault::ListEndEarly) => count >= left,
            _ => count > left,
        };
        let nothing = count == 0 && !self.has(Fault::ListZeroLater);
        let (bad_count, unwritten) = (nothing || passes, !self.is_written(opcode, count));
        match (bad_count, unwritten) {
            (true, true) if self.has(Fault::List20Before19) => 20,
            (true, _) => 19,
            (false, true) => 20,
            (false, false) => 0,
        }
    }

    /// Whether all instructions pass 19; only for a fault.
    fn counts_fit(&self, words: &[u32]) -> bool {
        let mut at = FRONT;
        while at < words.len() {
            let count = (words[at] >> 16) as usize;
            if count == 0 || count > words.len() - at {
                return false;
            }
            at += count;
        }
        true
    }

    /// Whether Declare writes the opcode with so many words.
    fn is_written(&self, opcode: u16, count: usize) -> bool {
        if let Some(fits) = self.planted(opcode, count) {
            return fits;
        }
        let Some(l) = layout_of(opcode) else { return false };
        let least = 1 + l.typed as usize + l.declares as usize + l.operands;
        match l.more {
            Nothing => count == least,
            OneAtMost => count == least || count == least + 1,
            AnyNumber => count >= least,
        }
    }

    /// What a fault makes of an opcode with so many words.
    fn planted(&self, opcode: u16, count: usize) -> Option<bool> {
        use Fault::*;
        let known = layout_of(opcode).is_some();
        let (of, fits) = match self.fault? {
            ListUnknownListed | ListUnknownSkipped => (!known && count > 0, true),
            ListCountUnjudged => (known && count > 0, true),
            ListOpcodeByte => (opcode > 255, false),
            // Let in.
            ListDecorateFive => ((opcode, count) == (op::DECORATE, 5), true),
            ListMemberDecorateSix => ((opcode, count) == (op::MEMBER_DECORATE, 6), true),
            ListConstantSix => ((opcode, count) == (op::CONSTANT, 6), true),
            ListVariableSix => ((opcode, count) == (op::VARIABLE, 6), true),
            ListNameTwo => ((opcode, count) == (op::NAME, 2), true),
            ListMemberNameThree => ((opcode, count) == (op::MEMBER_NAME, 3), true),
            ListStructOne => ((opcode, count) == (op::TYPE_STRUCT, 1), true),
            ListFunctionTwo => ((opcode, count) == (op::TYPE_FUNCTION, 2), true),
            ListCompositeTwo => ((opcode, count) == (op::CONSTANT_COMPOSITE, 2), true),
            ListImageTen => ((opcode, count) == (op::TYPE_IMAGE, 10), true),
            ListVoidThree => ((opcode, count) == (op::TYPE_VOID, 3), true),
            ListNop => ((opcode, count) == (NOP, 1), true),
            ListMemoryModel => ((opcode, count) == (MEMORY_MODEL, 3), true),
            ListSampledImage => ((opcode, count) == (TYPE_SAMPLED_IMAGE, 3), true),
            ListSpecConstant => ((opcode, count) == (SPEC_CONSTANT, 4), true),
            // Shut out.
            ListVoidUnknown => (opcode == op::TYPE_VOID, false),
            ListRayQueryUnknown => (opcode == op::TYPE_RAY_QUERY, false),
            ListAccelerationUnknown => (opcode == op::TYPE_ACCELERATION_STRUCTURE, false),
            ListEmptyName => ((opcode, count) == (op::NAME, 3), false),
            ListEmptyStruct => ((opcode, count) == (op::TYPE_STRUCT, 2), false),
            ListEmptyFunction => ((opcode, count) == (op::TYPE_FUNCTION, 3), false),
            ListEmptyComposite => ((opcode, count) == (op::CONSTANT_COMPOSITE, 3), false),
            ListFunctionExact => (opcode == op::TYPE_FUNCTION && count > 3, false),
            ListConstantFive => ((opcode, count) == (op::CONSTANT, 5), false),
            ListVariableFive => ((opcode, count) == (op::VARIABLE, 5), false),
            ListDecorateThree => ((opcode, count) == (op::DECORATE, 3), false),
            ListMemberDecorateFour => ((opcode, count) == (op::MEMBER_DECORATE, 4), false),
            ListLongNames => (opcode == op::NAME && count > 2 + 64, false),
            ListLongMemberNames => (opcode == op::MEMBER_NAME && count > 3 + 64, false),
            ListManyMembers => (opcode == op::TYPE_STRUCT && count > 2 + MAX_MEMBERS, false),
            ListManyParameters => {
                (opcode == op::TYPE_FUNCTION && count > 3 + MAX_PARAMETERS, false)
            }
            ListManyParts => (opcode == op::CONSTANT_COMPOSITE && count > 3 + MAX_MEMBERS, false),
            _ => return None,
        };
        of.then_some(fits)
    }

    /// "It doesn't judge ids"; faults do.
    fn id_fits(&self, opcode: u16, body: &[u32], bound: u32, before: &mut Vec<u32>) -> bool {
        let place = match layout_of(opcode) {
            Some(l) if l.declares => l.typed as usize,
            _ => return true,
        };
        let Some(&id) = body.get(place) else { return true };
        let again = before.contains(&id);
        if self.has(Fault::ListIdAgainJudged) {
            before.push(id);
        }
        match self.fault {
            Some(Fault::ListIdZeroJudged) => id != 0,
            Some(Fault::ListIdBoundJudged) => id < bound,
            Some(Fault::ListIdAgainJudged) => !again,
            _ => true,
        }
    }

    /// "For each instruction its opcode, its result id (0 if none), the count of its other
    /// words and those words": a result type is one of the other words.
    fn put(&self, first: u32, body: &[u32], out: &mut Vec<u32>) {
        use Fault::*;
        let opcode = first as u16;
        let (typed, declares) = layout_of(opcode).map_or((false, false), |l| (l.typed, l.declares));
        let mut others = body.to_vec();
        let place = match self.fault {
            Some(ListTypeAsResult) => 0,
            _ => typed as usize,
        };
        let targets = [op::NAME, op::MEMBER_NAME, op::DECORATE, op::MEMBER_DECORATE];
        let targeted = targets.contains(&opcode) && self.has(ListTargetAsResult);
        let mut result = 0;
        if (declares || targeted) && place < others.len() {
            result = others[place];
            if !self.has(ListResultAmongOthers) {
                others.remove(place);
            }
        }
        match self.fault {
            Some(ListTypeDropped) if typed => drop(others.remove(0)),
            Some(ListTypeLast) if typed => others.rotate_left(1),
            Some(ListResultZero) => result = 0,
            _ => {}
        }
        let count = match self.fault {
            Some(ListWordCount) => body.len() + 1,
            Some(ListCountWithResult) => body.len(),
            _ => others.len(),
        };
        out.push(if self.has(ListFirstWord) { first } else { opcode as u32 });
        if declares || !self.has(ListNoZero) {
            out.push(result);
        }
        out.push(count as u32);
        out.extend(others);
    }
}

/// The list joined again: the words of which it is the list. What is no list is joined as far
/// as it goes.
pub fn join(list: &[u32], fault: Option<Fault>) -> Vec<u32> {
    let has = |planted: Fault| fault == Some(planted);
    let mut words = list[..FRONT.min(list.len())].to_vec();
    if has(Fault::JoinWithoutFront) {
        words.clear();
    }
    let mut rest = &list[FRONT.min(list.len())..];
    while let [opcode, result, count, behind @ ..] = rest {
        let (others, after) = behind.split_at((*count as usize).min(behind.len()));
        rest = after;
        let mut body = others.to_vec();
        let layout = layout_of(*opcode as u16);
        if layout.is_some_and(|l| l.declares) && !(*result == 0 && has(Fault::JoinZeroDropped)) {
            let typed = layout.is_some_and(|l| l.typed) && !has(Fault::JoinResultFirst);
            body.insert((typed as usize).min(body.len()), *result);
        }
        let count = match fault {
            Some(Fault::JoinByOthers) => others.len(),
            _ => body.len() + 1,
        };
        let opcode = if has(Fault::JoinByZero) { 0 } else { *opcode };
        words.push((count as u32) << 16 | opcode);
        words.extend(body);
        if has(Fault::JoinFirstAlone) {
            break;
        }
    }
    words
}
