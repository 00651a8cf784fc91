// Included at the end of the copy of writer.rs, since the functions that documents 01
// and 02 name as the reference are private there. It calls them and adds nothing but
// void where paper 2 of document 02 puts it.

/// In place of void's id until a record returns void: ids begin at 1.
const NO_VOID: Word = 0;

impl Writer {
    /// "On an empty `Writer`, counter at start": no capability is in use yet.
    pub fn reference_empty(options: &Options, start: Word) -> Self {
        let mut writer = Writer::new(options).expect("version 1");
        writer.capabilities_used.clear();
        writer.id_gen = IdGenerator(start);
        writer.void_type = NO_VOID;
        writer
    }

    pub fn reference_type(
        &mut self,
        ir_module: &crate::Module,
        handle: Handle<crate::Type>,
    ) -> Result<Word, Error> {
        self.write_type_declaration_arena(&ir_module.types, handle)
    }

    /// Return type, none for void, and parameters by the ids of their entries.
    pub fn reference_function(
        &mut self,
        return_type: Option<Handle<crate::Type>>,
        parameters: &[Handle<crate::Type>],
    ) -> Word {
        let return_type_id = match return_type {
            Some(handle) => self.get_type_id(LookupType::Handle(handle)),
            None => self.reference_void(),
        };
        let parameter_type_ids =
            parameters.iter().map(|&handle| self.get_type_id(LookupType::Handle(handle))).collect();
        self.get_function_type(LookupFunctionType { parameter_type_ids, return_type_id })
    }

    /// "Void is declared by the first record that returns it, its id taken before that
    /// record's, in the test copy too": the Rust takes void's id in `Writer::new` and
    /// declares it in `write_logical_layout`, which is not called here, with this line.
    fn reference_void(&mut self) -> Word {
        if self.void_type == NO_VOID {
            self.void_type = self.id_gen.next();
            Instruction::type_void(self.void_type).to_words(&mut self.logical_layout.declarations);
        }
        self.void_type
    }

    pub fn reference_constant(
        &mut self,
        ir_module: &crate::Module,
        mod_info: &ModuleInfo,
        handle: Handle<crate::Expression>,
    ) -> Result<Word, Error> {
        self.constant_ids.resize(ir_module.const_expressions.len(), 0);
        self.write_constant_expr(handle, ir_module, mod_info)
    }

    pub fn reference_global(
        &mut self,
        ir_module: &crate::Module,
        handle: Handle<crate::GlobalVariable>,
    ) -> Result<Word, Error> {
        self.write_global_variable(ir_module, &ir_module.global_variables[handle])
    }

    pub fn reference_wrapped(
        ir_module: &crate::Module,
        handle: Handle<crate::GlobalVariable>,
    ) -> bool {
        global_needs_wrapper(ir_module, &ir_module.global_variables[handle])
    }

    /// How many capabilities are in use.
    pub fn reference_capabilities(&self) -> usize {
        self.capabilities_used.len()
    }

    /// "Before `in_words` the used capabilities, the names and the annotations go
    /// into their sections."
    pub fn reference_words(mut self) -> Vec<Word> {
        for &capability in self.capabilities_used.iter() {
            Instruction::capability(capability).to_words(&mut self.logical_layout.capabilities);
        }
        for name in self.debugs.iter() {
            name.to_words(&mut self.logical_layout.debugs);
        }
        for annotation in self.annotations.iter() {
            annotation.to_words(&mut self.logical_layout.annotations);
        }
        self.write_physical_layout();
        let mut words = Vec::new();
        self.physical_layout.in_words(&mut words);
        self.logical_layout.in_words(&mut words);
        words
    }
}
