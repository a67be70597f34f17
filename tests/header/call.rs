//! A call by the names of its parameters, with what it has to give and to leave.

/// Numbers with noise in them on both sides of a list, so that a write beside it is seen.
pub const MARGIN: usize = 2;

pub struct Call {
    pub function: &'static str,
    pub arguments: Vec<Argument>,
    /// The C type of what it gives.
    pub result: &'static str,
    pub gives: u64,
}

pub enum Argument {
    Number { name: &'static str, c_type: &'static str, value: u64 },
    List(List),
}

pub struct List {
    pub name: &'static str,
    /// The parameter behind it, its length.
    pub length_name: &'static str,
    /// Of an element.
    pub c_type: &'static str,
    pub length: usize,
    /// With its margins.
    pub before: Vec<u64>,
    /// What the call leaves, where it may write.
    pub after: Option<Vec<u64>>,
    /// So many of its first numbers are the library's own affair until a later call.
    pub own: usize,
}

impl Argument {
    pub fn name(&self) -> &'static str {
        match self {
            Argument::Number { name, .. } => name,
            Argument::List(list) => list.name,
        }
    }

    /// Two of one kind could be taken for each other without a word of the compiler.
    pub fn kind(&self) -> (&'static str, bool, bool) {
        match self {
            Argument::Number { c_type, .. } => (c_type, false, false),
            Argument::List(list) => (list.c_type, true, list.is_written()),
        }
    }
}

impl Call {
    /// What the independent reading makes of the arguments.
    pub fn of<R: Number>(function: &'static str, judged: impl FnOnce(&mut Arguments) -> R) -> Call {
        let mut making = Arguments::default();
        let gives = judged(&mut making).wide();
        let mut arguments = making.arguments;
        for (place, left) in making.written {
            if let Argument::List(list) = &mut arguments[place] {
                list.after = Some(left.numbers());
            }
        }
        Call { function, arguments, result: R::C_TYPE, gives }
    }

    /// Every parameter is an argument's and every argument has its parameters, a list its length right behind it.
    pub fn fits(&self, parameters: &[String]) -> Result<(), String> {
        let at = |name: &str| {
            let place = parameters.iter().position(|parameter| parameter == name);
            place.ok_or(format!("{} has no parameter {name}", self.function))
        };
        let mut count = 0;
        for argument in &self.arguments {
            let place = at(argument.name())?;
            count += 1;
            if let Argument::List(list) = argument {
                count += 1;
                if at(list.length_name)? != place + 1 {
                    let (name, length) = (list.name, list.length_name);
                    return Err(format!("{}: {length} is not behind {name}", self.function));
                }
            }
        }
        match count == parameters.len() {
            true => Ok(()),
            false => {
                Err(format!("{} has {} parameters, not {count}", self.function, parameters.len()))
            }
        }
    }
}

/// The arguments of a call as they are handed to the independent reading.
#[derive(Default)]
pub struct Arguments {
    arguments: Vec<Argument>,
    written: Vec<(usize, Box<dyn Left>)>,
}

impl Arguments {
    pub fn number<T: Number>(&mut self, name: &'static str, value: T) -> T {
        self.arguments.push(Argument::Number { name, c_type: T::C_TYPE, value: value.wide() });
        value
    }

    /// A list that is only read, and its length.
    pub fn read<T: Number>(
        &mut self,
        name: &'static str,
        length_name: &'static str,
        values: &[T],
    ) -> (*const T, usize) {
        let list = self.changed(name, length_name, values);
        self.written.pop();
        // The caller has the values for as long as the reading looks at them.
        (values.as_ptr(), list.1)
    }

    /// A list that is written, and its length, with noise in it before.
    pub fn written<T: Number>(
        &mut self,
        name: &'static str,
        length_name: &'static str,
        length: usize,
    ) -> (*mut T, usize) {
        self.changed(name, length_name, &noise::<T>(length, self.arguments.len() as u64))
    }

    /// A list that is changed from what it holds.
    pub fn changed<T: Number>(
        &mut self,
        name: &'static str,
        length_name: &'static str,
        values: &[T],
    ) -> (*mut T, usize) {
        let margins = noise::<T>(2 * MARGIN, 1_000 + self.arguments.len() as u64);
        let mut all: Vec<T> = [&margins[..MARGIN], values, &margins[MARGIN..]].concat();
        let (c_type, length) = (T::C_TYPE, values.len());
        let before = all.numbers();
        let list = List { name, length_name, c_type, length, before, after: None, own: 0 };
        // SAFETY: the margin lies in the list, which stays where it is when the box is moved.
        let inner = unsafe { all.as_mut_ptr().add(MARGIN) };
        self.written.push((self.arguments.len(), Box::new(all)));
        self.arguments.push(Argument::List(list));
        (inner, length)
    }

    /// The first numbers of the list before are not compared.
    pub fn own(&mut self, count: usize) {
        if let Some(Argument::List(list)) = self.arguments.last_mut() {
            list.own = count;
        }
    }
}

impl List {
    pub fn is_written(&self) -> bool {
        self.after.is_some()
    }
}

/// A list of any kind of numbers, after the call.
trait Left {
    fn numbers(&self) -> Vec<u64>;
}

impl<T: Number> Left for Vec<T> {
    fn numbers(&self) -> Vec<u64> {
        self.iter().map(|number| number.wide()).collect()
    }
}

fn noise<T: Number>(length: usize, seed: u64) -> Vec<T> {
    let number = |i: u64| (seed << 32 | i).wrapping_add(1).wrapping_mul(0x9E37_79B9_7F4A_7C15);
    (0..length as u64).map(|i| T::narrow(number(i) >> 7)).collect()
}

pub trait Number: Copy + 'static {
    const C_TYPE: &'static str;
    fn wide(self) -> u64;
    fn narrow(wide: u64) -> Self;
}

macro_rules! number {
    ($own:ty, $c_type:literal) => {
        impl Number for $own {
            const C_TYPE: &'static str = $c_type;
            fn wide(self) -> u64 {
                self.into()
            }
            fn narrow(wide: u64) -> $own {
                wide as $own
            }
        }
    };
}

number!(u8, "uint8_t");
number!(u16, "uint16_t");
number!(u32, "uint32_t");
number!(u64, "uint64_t");
