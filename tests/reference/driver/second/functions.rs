//! Paper 2 of document 02: function types, and void with the first that returns it.

use super::*;

/// A function record that was read, with the ids of its types and its own.
pub(super) struct Function {
    record: FunctionType,
    return_id: u64,
    parameter_ids: Vec<u64>,
    id: u64,
}

impl Second {
    pub(super) fn write_function(&mut self, record: FunctionType) {
        if self.has(Fault::VoidUnreturned) {
            self.find_void();
        }
        let first_void = self.returns_void(&record) && self.void.is_none();
        let early = first_void && self.has(Fault::VoidIdAfterFunction);
        let early = early.then(|| self.take_id());
        let return_id = match self.returns_void(&record) {
            true => self.find_void(),
            false => self.entries[record.return_type as usize],
        };
        let parameter_ids = record.parameters.iter().map(|&p| self.parameter_id(p)).collect();
        let mut function = Function { record, return_id, parameter_ids, id: 0 };
        let shared = self.functions.iter().find(|earlier| self.share(earlier, &function));
        function.id = match shared.map(|earlier| earlier.id) {
            Some(id) => {
                if self.has(Fault::SharedFunctionTakesId) {
                    self.take_id();
                }
                id
            }
            None => {
                let id = early.unwrap_or_else(|| self.take_id());
                self.declare_function(&function, id);
                id
            }
        };
        if first_void && self.has(Fault::VoidBehindFunction) {
            let count = self.declarations.len();
            self.declarations.swap(count - 2, count - 1);
        }
        self.functions.push(function);
    }

    fn returns_void(&self, record: &FunctionType) -> bool {
        let unread = record.return_type as usize >= self.types.len();
        record.return_type == VOID || unread && self.has(Fault::UnreadReturnIsVoid)
    }

    /// The id of void, which the first find declares.
    pub(super) fn find_void(&mut self) -> u64 {
        match self.void {
            Some(id) if !self.has(Fault::VoidEachTime) => id,
            _ => {
                let id = self.take_id();
                self.declare(op::TYPE_VOID, &[id]);
                self.void = Some(id);
                id
            }
        }
    }

    fn parameter_id(&mut self, parameter: u16) -> u64 {
        if parameter == VOID && self.has(Fault::VoidParameter) {
            return self.find_void();
        }
        match self.types.get(parameter as usize).map(|t| &t.inner) {
            None => self.functions[parameter as usize - self.types.len()].id, // only for a fault
            Some(
                Inner::Image { .. } | Inner::Sampler { .. } | Inner::AccelerationStructure { .. },
            ) if self.has(Fault::HandlesByPointer) => {
                self.find(Shape::Pointer { base: parameter, class: self.class_of(HANDLE) })
            }
            Some(_) => self.entries[parameter as usize],
        }
    }

    /// Whether two records are one function type: "equal return id and equal parameter ids".
    fn share(&self, a: &Function, b: &Function) -> bool {
        let returned = a.return_id == b.return_id;
        let (these, those) = (&a.parameter_ids, &b.parameter_ids);
        match self.fault {
            Some(Fault::FunctionsApart) => false,
            Some(Fault::FunctionsByEntry) => a.record == b.record,
            Some(Fault::FunctionsWithoutReturn) => these == those,
            Some(Fault::FunctionsWithoutLast) => {
                let but_last = |ids: &[u64]| ids.split_last().map(|(_, rest)| rest.to_vec());
                returned && but_last(these) == but_last(those)
            }
            Some(Fault::FunctionsWithoutCount) => {
                returned && these.iter().zip(those).all(|(this, that)| this == that)
            }
            Some(Fault::FunctionsUnordered) => {
                let sorted = |ids: &[u64]| {
                    let mut ids = ids.to_vec();
                    ids.sort();
                    ids
                };
                returned && sorted(these) == sorted(those)
            }
            _ => returned && these == those,
        }
    }

    fn declare_function(&mut self, function: &Function, id: u64) {
        let mut parameters = function.parameter_ids.clone();
        if self.has(Fault::ParametersReversed) {
            parameters.reverse();
        }
        let operands = match self.has(Fault::ReturnBehindParameters) {
            true => [&[id], &parameters[..], &[function.return_id]].concat(),
            false => [&[id, function.return_id], &parameters[..]].concat(),
        };
        self.declare(op::TYPE_FUNCTION, &operands);
        if self.has(Fault::FunctionsInFront) {
            self.declarations.rotate_right(1);
        }
        if self.has(Fault::FunctionNamed) {
            self.label(op::NAME, &[id], &Some(Vec::new()));
        }
        if self.has(Fault::FunctionListsLinkage) {
            self.use_capability(capability::LINKAGE);
        }
    }
}

/// The tests of a function record.
impl Second {
    /// Its rank "lies between types and constants".
    pub(super) fn rank_of(&self, tag: u8, last: u8) -> Option<u8> {
        let own = rank(tag)?;
        let behind = |before: u8| rank(before) == Some(last);
        Some(match (tag, self.fault) {
            (16..=28, Some(Fault::TypesBehindFunctions)) if behind(48) => last,
            (2, Some(Fault::RemapsBehindFunctions)) if behind(48) => last,
            (48, Some(Fault::FunctionsBehindConstants)) if behind(64) => last,
            (48, Some(Fault::FunctionsBehindGlobals)) if behind(96) => last,
            (64..=68, Some(Fault::ConstantsNotBehindFunctions)) if behind(48) => 0,
            (96, Some(Fault::GlobalsNotBehindFunctions)) if behind(48) => 0,
            _ => own,
        })
    }

    /// "At most 64 fit in a sheet."
    pub(super) fn functions_full(&self) -> bool {
        let count = self.functions.len();
        match self.fault {
            Some(Fault::Functions65) => count == MAX_FUNCTIONS + 1,
            Some(Fault::Functions63) => count == MAX_FUNCTIONS - 1,
            Some(Fault::FunctionsCountAsTypes) if count + self.types.len() == MAX_TYPES => true,
            _ => count == MAX_FUNCTIONS,
        }
    }

    /// "A count byte 0 to 16."
    pub(super) fn count_fits(&self, f: &FunctionType) -> bool {
        f.parameters.len()
            <= match self.fault {
                Some(Fault::Parameters17) => MAX_PARAMETERS + 1,
                Some(Fault::Parameters15) => MAX_PARAMETERS - 1,
                _ => MAX_PARAMETERS,
            }
    }

    /// "A return type (65,535 for void)" and parameters, all of them types that were read.
    pub(super) fn function_references_fit(&self, f: &FunctionType) -> bool {
        let read = |index: u16| (index as usize) < self.types.len();
        let returned = match self.fault {
            Some(Fault::VoidReturnRefused) => read(f.return_type),
            Some(Fault::UnreadReturnIsVoid) => true,
            _ => f.return_type == VOID || read(f.return_type),
        };
        let fits = |&parameter: &u16| match self.fault {
            Some(Fault::VoidParameter) => parameter == VOID || read(parameter),
            Some(Fault::FunctionsAreEntries) => {
                (parameter as usize) < self.types.len() + self.functions.len()
            }
            _ => read(parameter),
        };
        returned && f.parameters.iter().all(fits)
    }

    /// "The existing numbers cover bad records, 12 excepted."
    pub(super) fn is_repeated_function(&self, f: &FunctionType) -> bool {
        self.has(Fault::FunctionRepeated) && self.functions.iter().any(|e| e.record == *f)
    }

    /// No function record is unfit; faults want zeroable types.
    pub(super) fn function_fits(&self, f: &FunctionType) -> bool {
        match self.fault {
            Some(Fault::ReturnZeroable) => f.return_type == VOID || self.zeroable(f.return_type),
            Some(Fault::ParametersZeroable) => f.parameters.iter().all(|&p| self.zeroable(p)),
            _ => true,
        }
    }
}
