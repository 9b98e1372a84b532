//! What document 01 demands against the Rust, as changes of the Rust's text.
//!
//! Together they make the reader that document 01 describes. Everything that
//! is not changed here is the Rust, so this is a definition of the demanded
//! differences and not a second parser.

pub struct Patch {
    /// `cdecl` or `ctype`.
    pub file: &'static str,
    /// What document 01 says, in short.
    pub why: &'static str,
    pub change: Change,
}

pub enum Change {
    /// Old text, new text.
    Replace(&'static str, &'static str),
    /// From here (taken away) up to there (kept), new text.
    ReplaceFromTo(&'static str, &'static str, &'static str),
    /// New text at the file's end.
    Append(&'static str),
}

use Change::{Append, Replace, ReplaceFromTo};

pub const ALL: &[Patch] = &[
    // -- tables ----------------------------------------------------------
    Patch {
        file: "ctype",
        why: "27: 1,024 type rows (a named row)",
        change: Replace(
            "            let id = TypeId(self.types.len() as u32);
            self.by_name.insert(name, id);",
            "            crate::demand::need_row(self.types.len());
            let id = TypeId(self.types.len() as u32);
            self.by_name.insert(name, id);",
        ),
    },
    Patch {
        file: "ctype",
        why: "27: 1,024 type rows (a row without a name)",
        change: Replace(
            "        let id = TypeId(self.types.len() as u32);
        self.types.push(ty);
        id",
            "        crate::demand::need_row(self.types.len());
        let id = TypeId(self.types.len() as u32);
        self.types.push(ty);
        id",
        ),
    },
    Patch {
        file: "ctype",
        why: "no demand: the same alignments, found in time that does not double",
        change: Replace("self.align_at(id, 0)", "crate::listing::Alignments::new(self).of(id)"),
    },
    // -- tokens ----------------------------------------------------------
    Patch {
        file: "cdecl",
        why: "4: where the `#` of a line stands",
        change: Replace(
            "            let mut line = String::new();
            i += 1;",
            "            let mut line = String::new();
            let hash = i;
            i += 1;",
        ),
    },
    Patch {
        file: "cdecl",
        why: "4: a `#` line that `object_like_macro` would keep; at `#`",
        change: Replace(
            "                macros.insert(name, body);",
            "                return Err(ParseError::at(text, offsets[hash], crate::demand::HASH_LINE));",
        ),
    },
    Patch {
        file: "cdecl",
        why: "8: a literal only too large keeps being a literal",
        change: ReplaceFromTo(
            "    // Wrapping rather than refusing: `0xffffffffffffffff`",
            "/// A character constant, returning its value",
            "    crate::demand::literal(digits, radix)
}

",
        ),
    },
    Patch {
        file: "cdecl",
        why: "8: the value of a number outside the range; at the literal",
        change: Replace(
            "                    format!(\"{word:?} is not an integer constant this parser reads\"),
                )
            })?;",
            "                    format!(\"{word:?} is not an integer constant this parser reads\"),
                )
            })?;
            if !crate::demand::fits(value) {
                return Err(ParseError::at(text, offsets[start], crate::demand::VALUE));
            }",
        ),
    },
    Patch {
        file: "cdecl",
        why: "8: the value of a character constant outside the range; at the literal",
        change: Replace(
            "            i = next;
",
            "            i = next;
            if !crate::demand::fits(value) {
                return Err(ParseError::at(text, offsets[start], crate::demand::VALUE));
            }
",
        ),
    },
    Patch {
        file: "cdecl",
        why: "8: a character constant's exact value, which the Rust shifts out of 128 bits",
        change: Replace(
            "        value = (value << 8) | (c & 0xff);",
            "        value = crate::demand::one_more_byte(value, c & 0xff);",
        ),
    },
    // -- constants -------------------------------------------------------
    Patch {
        file: "cdecl",
        why: "8: a left shift's exact value, which the Rust wraps at 128 bits",
        change: Replace(
            "left.wrapping_shl((right as u32).min(127))",
            "crate::demand::shift_left(left, (right as u32).min(127))",
        ),
    },
    Patch {
        file: "cdecl",
        why: "8: the result of a binary operator; at the operator",
        change: Replace(
            "                _ => return Err(self.error(at, format!(\"`{op}` is not an operator here\"))),
            };",
            "                _ => return Err(self.error(at, format!(\"`{op}` is not an operator here\"))),
            };
            if !crate::demand::fits(left) {
                return Err(self.error(at, crate::demand::VALUE));
            }",
        ),
    },
    Patch {
        file: "cdecl",
        why: "8: the result of a minus; at the operator",
        change: Replace(
            "            return Ok(self.unary(depth + 1)?.wrapping_neg());",
            "            let value = self.unary(depth + 1)?.wrapping_neg();
            if !crate::demand::fits(value) {
                return Err(self.error(at, crate::demand::VALUE));
            }
            return Ok(value);",
        ),
    },
    Patch {
        file: "cdecl",
        why: "8: the value after the largest; at the enumerator name",
        change: Replace(
            "            if !(i64::MIN as i128..=u64::MAX as i128).contains(&next) {",
            "            if !crate::demand::fits(next) {",
        ),
    },
    // -- entries that are counted ----------------------------------------
    Patch {
        file: "cdecl",
        why: "27: 4,096 enumerators",
        change: Replace(
            "            values.push((name, next as i64));",
            "            self.take(crate::demand::Entry::Enumerator)?;
            values.push((name, next as i64));",
        ),
    },
    Patch {
        file: "cdecl",
        why: "27: 4,096 parameters",
        change: Replace(
            "            out.push((name, ty));",
            "            self.take(crate::demand::Entry::Parameter)?;
            out.push((name, ty));",
        ),
    },
    Patch {
        file: "cdecl",
        why: "27: 4,096 members (a body without a name)",
        change: Replace(
            "                out.push(Member {
                    name: None,
                    ty: base,
                    bits: None,",
            "                self.take(crate::demand::Entry::Member)?;
                out.push(Member {
                    name: None,
                    ty: base,
                    bits: None,",
        ),
    },
    Patch {
        file: "cdecl",
        why: "27: 4,096 members (an unnamed bit-field; its width is looked at first)",
        change: Replace(
            "                    out.push(Member {
                        name: None,
                        ty: base,
                        bits: Some(self.bit_width(width, at)?),
                        at,
                    });",
            "                    let bits = Some(self.bit_width(width, at)?);
                    self.take(crate::demand::Entry::Member)?;
                    out.push(Member {
                        name: None,
                        ty: base,
                        bits,
                        at,
                    });",
        ),
    },
    Patch {
        file: "cdecl",
        why: "27: 4,096 members (a named one)",
        change: Replace(
            "                    out.push(Member {
                        name: Some(name),",
            "                    self.take(crate::demand::Entry::Member)?;
                    out.push(Member {
                        name: Some(name),",
        ),
    },
    Patch {
        file: "cdecl",
        why: "27: 1,024 declarations (one without a name)",
        change: Replace(
            "            return Ok(vec![Declaration {",
            "            self.take(crate::demand::Entry::Declaration)?;
            return Ok(vec![Declaration {",
        ),
    },
    Patch {
        file: "cdecl",
        why: "27: 1,024 declarations (a typedef)",
        change: Replace(
            "                let ty = self.define_typedef(&name, ty, at)?;
",
            "                let ty = self.define_typedef(&name, ty, at)?;
                self.take(crate::demand::Entry::Declaration)?;
",
        ),
    },
    Patch {
        file: "cdecl",
        why: "27: 1,024 declarations (another name)",
        change: Replace(
            "            } else {
                out.push(Declaration {",
            "            } else {
                self.take(crate::demand::Entry::Declaration)?;
                out.push(Declaration {",
        ),
    },
    // -- steps of a declarator -------------------------------------------
    Patch {
        file: "cdecl",
        why: "27: 256 steps, counted from the outermost declarator (a declaration's or member's)",
        change: Replace(
            "        let d = self.parse_declarator(true)?;
        let (ty, name) = self.apply(&d, base)?;
        Ok((ty, name))",
            "        let d = self.whole_declarator()?;
        let (ty, name) = self.apply(&d, base)?;
        Ok((ty, name))",
        ),
    },
    Patch {
        file: "cdecl",
        why: "27: 256 steps, counted from the outermost declarator (a parameter's own)",
        change: Replace(
            "            let d = self.parse_declarator(true)?;
            let (ty, name) = self.apply(&d, base)?;
            // `(void)` alone",
            "            let d = self.whole_declarator()?;
            let (ty, name) = self.apply(&d, base)?;
            // `(void)` alone",
        ),
    },
    Patch {
        file: "cdecl",
        why: "27: a star is read",
        change: Replace(
            "            pointers.push(self.qualifiers_only());",
            "            self.take_step()?;
            pointers.push(self.qualifiers_only());",
        ),
    },
    Patch {
        file: "cdecl",
        why: "27: a `[` is read",
        change: Replace(
            "                let count = self.array_bound()?;",
            "                self.take_step()?;
                let count = self.array_bound()?;",
        ),
    },
    Patch {
        file: "cdecl",
        why: "27: a `(` of a parameter list is read",
        change: Replace(
            "                let (parameters, varargs) = self.parameters()?;",
            "                self.take_step()?;
                let (parameters, varargs) = self.parameters()?;",
        ),
    },
    Patch {
        file: "cdecl",
        why: "27: the counting itself, and where the reading stopped",
        change: Append(include_str!("parser.rs")),
    },
    // -- layout ----------------------------------------------------------
    Patch {
        file: "cdecl",
        why: "26 and exact sizes; first bits are noted",
        change: ReplaceFromTo(
            "    /// Place the members, in bits, and give the whole thing a size.",
            "    fn enumeration(&mut self)",
            include_str!("layout.rs"),
        ),
    },
    Patch {
        file: "cdecl",
        why: "first bits of a tagged body, also of one that replaces another",
        change: Replace(
            "                self.types.define(id, complete);
                Ok(id)
            }
            None => Ok(self.types.add(complete)),",
            "                self.types.define(id, complete);
                crate::demand::keep_first_bits(id.0);
                Ok(id)
            }
            None => {
                // An equal row keeps the first bits of its first body.
                let rows = self.types.len();
                let id = self.types.add(complete);
                if id.0 as usize == rows {
                    crate::demand::keep_first_bits(id.0);
                }
                Ok(id)
            }",
        ),
    },
];
