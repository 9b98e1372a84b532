
// Added by tools/demanded: limits of document 01.
impl Parser<'_> {
    /// Count an entry that is about to be pushed.
    fn take(&mut self, entry: crate::demand::Entry) -> Result<(), ParseError> {
        if crate::demand::take(entry) {
            return Ok(());
        }
        Err(self.error(self.here(), crate::demand::LIMIT))
    }

    /// Count a star, a `[` or a `(` that has just been read.
    fn take_step(&mut self) -> Result<(), ParseError> {
        self.take(crate::demand::Entry::Step)
    }

    /// A declarator that is no part of another one: its steps count from 0,
    /// and those of the one around it (it may be a parameter) wait.
    fn whole_declarator(&mut self) -> Result<Dcl, ParseError> {
        let around = crate::demand::begin_declarator();
        let d = self.parse_declarator(true)?;
        crate::demand::end_declarator(around);
        Ok(d)
    }
}

/// A full row table is found where no refusal can be returned, and unwinds.
/// The cursor is noted on the way out: 27 stands at the next token not read.
impl Drop for Parser<'_> {
    fn drop(&mut self) {
        crate::demand::note_cursor(self.here());
    }
}

fn exact_round_up(v: u128, to: u128) -> u128 {
    v.div_ceil(to) * to
}
