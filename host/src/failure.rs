use std::fmt;

macro_rules! failures {
    ($($number:literal $name:ident: $text:literal,)*) => {
        /// A refusal, under its number and name.
        #[derive(Clone, Copy, Debug, PartialEq, Eq, Hash)]
        #[repr(u32)]
        pub enum Failure {
            $(#[doc = $text] $name = $number,)*
        }

        impl Failure {
            pub const ALL: &[Failure] = &[$(Failure::$name),*];

            pub fn name(self) -> &'static str {
                match self {
                    $(Failure::$name => stringify!($name),)*
                }
            }
        }

        impl fmt::Display for Failure {
            fn fmt(&self, f: &mut fmt::Formatter<'_>) -> fmt::Result {
                let text = match self {
                    $(Failure::$name => $text,)*
                };
                write!(f, "{} {}: {text}", self.number(), self.name())
            }
        }
    };
}

failures! {
    1 Dimension: "a length does not fit",
    2 NonFinite: "a number is not finite",
    3 UnsupportedTableau: "the tableau is a hybrid one",
    4 Direction: "a step or setting points the wrong way",
    5 TimeResolution: "a step does not move the time",
    6 Singular: "the matrix is singular",
    7 Configuration: "the controller's settings or state are out of range",
    8 Tolerance: "a tolerance is not finite and positive",
    9 FirstStep: "a first step cannot be chosen",
    10 SegmentData: "the segment's data do not fit",
    11 OutsideTimeSpan: "the time lies outside the segment",
    12 TableauFile: "the bytes are no tableau file",
    13 PivotRange: "a pivot is out of range",
    14 PendingCandidate: "a candidate is pending",
    15 NoCandidate: "no candidate is pending",
    16 MinimumStep: "the step is at its minimum",
    17 NoRequest: "nothing was requested",
    18 AttemptOpen: "an attempt is open",
    19 HostFailure: "the host reported failure",
}

impl Failure {
    pub fn number(self) -> u32 {
        self as u32
    }

    pub fn from_number(number: u32) -> Option<Self> {
        Self::ALL.iter().copied().find(|f| f.number() == number)
    }

    /// The refusal that a call answered.
    #[cold]
    pub(crate) fn told(number: u32) -> Self {
        Self::from_number(number).expect("a refusal's number")
    }

    /// What a call answered that has no other answer: 0, or a refusal.
    #[inline]
    pub(crate) fn unless_0(number: u32) -> Result<(), Self> {
        match number {
            0 => Ok(()),
            number => Err(Self::told(number)),
        }
    }
}

impl std::error::Error for Failure {}

#[cfg(test)]
mod tests {
    use super::Failure;

    #[test]
    fn numbers_run_from_1_to_19() {
        let numbers: Vec<u32> = Failure::ALL.iter().map(|f| f.number()).collect();
        assert_eq!(numbers, (1..=19).collect::<Vec<_>>());
        assert_eq!(Failure::from_number(4), Some(Failure::Direction));
        assert_eq!(Failure::from_number(0), None);
        assert_eq!(Failure::from_number(20), None);
        assert_eq!(
            Failure::TimeResolution.to_string(),
            "5 TimeResolution: a step does not move the time"
        );
    }
}
