//! Plans, and how one is read off its text.

/// The sizes of a memory.
#[derive(Clone, Copy)]
pub struct Sizes {
    pub components: u32,
    pub slots: u32,
    pub list_words: u32,
    pub pool_words: u32,
}

/// A call of a port.
pub enum Call {
    Update { component: u32, value: u64 },
    UpdateIf { component: u32, expected: u64, value: u64 },
    Scan { components: Vec<u32> },
    Read { component: u32 },
}

/// What a plan asks for.
pub struct Plan {
    pub sizes: Sizes,
    pub initial: Vec<u64>,
    /// The calls of each port.
    pub ports: Vec<Vec<Call>>,
    /// Ports, with how many turns each gets.
    pub turns: Vec<(u32, u32)>,
    /// Whether each port is run to its end after them.
    pub rest: bool,
}

/// The plan with this text. It is taken to be lawful: what can't be read is answered with none, but not all
/// that a plan has to be is judged.
pub fn read(text: &[u8]) -> Option<Plan> {
    let mut text = Text(text);
    let sizes = text.sizes()?;
    let initial = text.initial(sizes.components)?;
    let mut ports = Vec::new();
    while text.takes(b"port") {
        ports.push(text.calls()?);
    }
    let (turns, rest) = text.turns()?;
    text.0.is_empty().then_some(Plan { sizes, initial, ports, turns, rest })
}

/// What is left of a text.
struct Text<'a>(&'a [u8]);

impl Text<'_> {
    /// Whether these bytes are next. They are taken then.
    #[inline]
    fn takes(&mut self, bytes: &[u8]) -> bool {
        match self.0.strip_prefix(bytes) {
            Some(rest) => {
                self.0 = rest;
                true
            }
            None => false,
        }
    }

    #[inline]
    fn expect(&mut self, bytes: &[u8]) -> Option<()> {
        self.takes(bytes).then_some(())
    }

    /// The number that is next.
    #[inline]
    fn number(&mut self) -> Option<u64> {
        let (&first, mut rest) = self.0.split_first()?;
        let mut number = u64::from(digit(first)?);
        while let [byte, after @ ..] = rest {
            let Some(digit) = digit(*byte) else { break };
            number = number.checked_mul(10)?.checked_add(u64::from(digit))?;
            rest = after;
        }
        self.0 = rest;
        Some(number)
    }

    #[inline]
    fn short(&mut self) -> Option<u32> {
        u32::try_from(self.number()?).ok()
    }

    #[inline]
    fn short_field(&mut self) -> Option<u32> {
        self.expect(b" ")?;
        self.short()
    }

    #[inline]
    fn field(&mut self) -> Option<u64> {
        self.expect(b" ")?;
        self.number()
    }

    fn sizes(&mut self) -> Option<Sizes> {
        self.expect(b"sizes")?;
        let sizes = Sizes {
            components: self.short_field()?,
            slots: self.short_field()?,
            list_words: self.short_field()?,
            pool_words: self.short_field()?,
        };
        self.expect(b"\n")?;
        Some(sizes)
    }

    fn initial(&mut self, components: u32) -> Option<Vec<u64>> {
        self.expect(b"initial")?;
        let initial = (0..components).map(|_| self.field()).collect::<Option<_>>()?;
        self.expect(b"\n")?;
        Some(initial)
    }

    fn calls(&mut self) -> Option<Vec<Call>> {
        let mut calls = Vec::new();
        while !self.takes(b"\n") {
            self.expect(if calls.is_empty() { b" " } else { b"; " })?;
            calls.push(self.call()?);
        }
        Some(calls)
    }

    #[inline]
    fn call(&mut self) -> Option<Call> {
        if self.takes(b"read") {
            return Some(Call::Read { component: self.short_field()? });
        }
        if self.takes(b"scan") {
            return Some(Call::Scan { components: self.positions()? });
        }
        self.expect(b"update")?;
        let conditional = self.takes(b"if");
        let component = self.short_field()?;
        Some(match conditional {
            true => Call::UpdateIf { component, expected: self.field()?, value: self.field()? },
            false => Call::Update { component, value: self.field()? },
        })
    }

    #[inline]
    fn positions(&mut self) -> Option<Vec<u32>> {
        let mut positions = Vec::new();
        while self.takes(b" ") {
            positions.push(self.short()?);
        }
        Some(positions)
    }

    fn turns(&mut self) -> Option<(Vec<(u32, u32)>, bool)> {
        self.expect(b"steps")?;
        let mut turns = Vec::new();
        while !self.takes(b"\n") {
            if self.takes(b" rest\n") {
                return Some((turns, true));
            }
            let port = self.short_field()?;
            self.expect(b"*")?;
            turns.push((port, self.short()?));
        }
        Some((turns, false))
    }
}

#[inline]
fn digit(byte: u8) -> Option<u8> {
    let digit = byte.wrapping_sub(b'0');
    (digit < 10).then_some(digit)
}
