
// What the example relative_pointer draws with, where nothing is drawn: its crates are not packaged. tools/try-rust appends this to it.

mod raqote {
    #![allow(dead_code)]

    #[derive(Clone, Copy)]
    pub struct SolidSource {
        pub r: u8,
        pub g: u8,
        pub b: u8,
        pub a: u8,
    }

    pub enum Source {
        Solid(SolidSource),
    }

    #[derive(Default)]
    pub struct StrokeStyle;
    pub struct DrawOptions;
    pub struct Point;
    pub struct Path;
    pub struct PathBuilder;
    pub struct DrawTarget<'a>(&'a mut [u32]);

    impl DrawOptions {
        pub fn new() -> Self {
            Self
        }
    }

    impl Point {
        pub fn new(_x: f32, _y: f32) -> Self {
            Self
        }
    }

    impl PathBuilder {
        pub fn new() -> Self {
            Self
        }
        pub fn arc(&mut self, _x: f32, _y: f32, _radius: f32, _from: f32, _to: f32) {}
        pub fn close(&mut self) {}
        pub fn finish(self) -> Path {
            Path
        }
    }

    impl<'a> DrawTarget<'a> {
        pub fn from_backing(_width: i32, _height: i32, pixels: &'a mut [u32]) -> Self {
            Self(pixels)
        }
        pub fn clear(&mut self, _color: SolidSource) {
            self.0.fill(0);
        }
        pub fn fill_rect(&mut self, _x: f32, _y: f32, _width: f32, _height: f32, _source: &Source, _options: &DrawOptions) {}
        pub fn stroke(&mut self, _path: &Path, _source: &Source, _style: &StrokeStyle, _options: &DrawOptions) {}
        pub fn draw_text<F>(&mut self, _font: &F, _size: f32, _text: &str, _at: Point, _source: &Source, _options: &DrawOptions) {}
    }
}

mod font_kit {
    pub mod family_name {
        pub enum FamilyName {
            SansSerif,
        }
    }

    pub mod properties {
        pub struct Properties;

        impl Properties {
            pub fn new() -> Self {
                Self
            }
        }
    }

    pub mod loaders {
        pub mod freetype {
            pub struct Font;
        }
    }

    pub mod source {
        use super::{family_name::FamilyName, loaders::freetype::Font, properties::Properties};

        pub struct SystemSource;
        pub struct Handle;

        impl SystemSource {
            pub fn new() -> Self {
                Self
            }
            pub fn select_best_match(&self, _names: &[FamilyName], _properties: &Properties) -> Option<Handle> {
                Some(Handle)
            }
        }

        impl Handle {
            pub fn load(&self) -> Option<Font> {
                Some(Font)
            }
        }
    }
}
