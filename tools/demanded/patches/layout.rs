    /// The Rust's layout with exact sizes: each size, bit count and unit end
    /// is worked out in 128 bits and refused with 26 above 2^64 - 1.
    fn layout(
        &mut self,
        union: bool,
        members: Vec<Member>,
        at: usize,
    ) -> Result<(Vec<Field>, u64), ParseError> {
        let mut fields = Vec::new();
        let mut first_bits = Vec::new();
        let mut bits: u128 = 0;
        let mut max_align: u128 = 1;
        let mut widest: u128 = 0;

        for (n, m) in members.iter().enumerate() {
            let align = self.types.align_of(m.ty).unwrap_or(1).max(1) as u128;
            max_align = max_align.max(align);
            let last = n + 1 == members.len();
            let size = self.member_size(m, last)?;
            let mut field = Field {
                name: m.name.clone().unwrap_or_default(),
                ty: m.ty,
                offset: 0,
                bits: m.bits,
            };

            if union {
                if m.bits != Some(0) {
                    widest = widest.max(size);
                    first_bits.push(0);
                    fields.push(field);
                }
                continue;
            }
            match m.bits {
                None => {
                    bits = self.in_range(exact_round_up(bits, align * 8), m.at)?;
                    field.offset = (bits / 8) as u64;
                    first_bits.push(bits as u64);
                    bits = self.in_range(bits + size * 8, m.at)?;
                    fields.push(field);
                }
                Some(0) => bits = self.in_range(exact_round_up(bits, align * 8), m.at)?,
                Some(width) => {
                    let unit = size.max(1) * 8;
                    let unit_end = self.in_range((bits / unit) * unit + unit, m.at)?;
                    if bits + width as u128 > unit_end {
                        bits = self.in_range(exact_round_up(bits, align * 8), m.at)?;
                    }
                    field.offset = ((bits / unit) * unit / 8) as u64;
                    first_bits.push(bits as u64);
                    bits = self.in_range(bits + width as u128, m.at)?;
                    fields.push(field);
                }
            }
        }

        let size = if union {
            self.in_range(exact_round_up(widest, max_align), at)?
        } else {
            let whole_bytes = self.in_range(exact_round_up(bits, 8), at)?;
            exact_round_up(whole_bytes / 8, max_align)
        };
        if size > u32::MAX as u128 {
            return Err(self.error(at, "this structure is larger than four gigabytes"));
        }
        crate::demand::note_first_bits(first_bits);
        Ok((fields, size as u64))
    }

    /// 20 where the size is unknown, unless an unsized array is last; 26 where
    /// it passes 2^64 - 1.
    fn member_size(&self, m: &Member, last: bool) -> Result<u128, ParseError> {
        match crate::listing::size_of(self.types, m.ty) {
            crate::listing::Size::Bytes(size) => Ok(size as u128),
            crate::listing::Size::Big => Err(self.error(m.at, crate::demand::LAYOUT)),
            crate::listing::Size::Unknown => {
                let unsized_array = matches!(
                    self.types.get(self.types.resolve(m.ty)),
                    Some(Type::Array(_, None))
                );
                if last && unsized_array {
                    return Ok(0);
                }
                Err(self.error(m.at, "it has a type, whose size is not known here"))
            }
        }
    }

    fn in_range(&self, n: u128, at: usize) -> Result<u128, ParseError> {
        if n > u64::MAX as u128 {
            return Err(self.error(at, crate::demand::LAYOUT));
        }
        Ok(n)
    }

