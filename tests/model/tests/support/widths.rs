/// Makes each of these functions, generic over the width, a test at either.
macro_rules! at_both_widths {
    ($($test:ident,)*) => {
        mod narrow {
            $(#[test]
            fn $test() {
                super::$test::<u32>();
            })*
        }

        mod wide {
            $(#[test]
            fn $test() {
                super::$test::<u64>();
            })*
        }
    };
}

pub(crate) use at_both_widths;
