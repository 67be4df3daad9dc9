//! No table is drawn.

pub mod builder {
    #[derive(Default)]
    pub struct Builder;

    pub struct Table;

    impl Builder {
        pub fn set_header<T>(&mut self, _: T) {}

        pub fn push_record<T>(&mut self, _: T) {}

        pub fn build(self) -> Table {
            Table
        }
    }

    impl Table {
        pub fn with<T>(&mut self, _: T) -> &mut Table {
            self
        }
    }

    impl std::fmt::Display for Table {
        fn fmt(&self, _: &mut std::fmt::Formatter<'_>) -> std::fmt::Result {
            Ok(())
        }
    }
}

pub mod settings {
    pub struct Style;

    impl Style {
        pub fn rounded() -> Style {
            Style
        }

        pub fn modern() -> Style {
            Style
        }

        pub fn horizontals<T>(self, _: T) -> Style {
            self
        }

        pub fn get_horizontal(&self) {}
    }

    pub mod style {
        pub struct HorizontalLine;

        impl HorizontalLine {
            pub fn new(_: usize, _: ()) -> HorizontalLine {
                HorizontalLine
            }
        }
    }
}
