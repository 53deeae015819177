// Stand-in for the crate audioadapter_buffers: the owned buffer that lib.rs names.
pub mod owned {
    use audioadapter::{Adapter, AdapterMut};

    pub struct InterleavedOwned<T> {
        data: Vec<T>,
        channels: usize,
        frames: usize,
    }

    impl<T: Clone> InterleavedOwned<T> {
        pub fn new(value: T, channels: usize, frames: usize) -> Self {
            Self { data: vec![value; channels * frames], channels, frames }
        }
        pub fn new_from(data: Vec<T>, channels: usize, frames: usize) -> Result<Self, String> {
            Ok(Self { data, channels, frames })
        }
        pub fn take_data(self) -> Vec<T> {
            self.data
        }
    }

    impl<T: Clone> Adapter<T> for InterleavedOwned<T> {
        fn channels(&self) -> usize {
            self.channels
        }
        fn frames(&self) -> usize {
            self.frames
        }
        fn read_sample(&self, channel: usize, frame: usize) -> Option<T> {
            self.data.get(frame * self.channels + channel).cloned()
        }
    }

    impl<T: Clone> AdapterMut<T> for InterleavedOwned<T> {
        fn write_sample(&mut self, channel: usize, frame: usize, value: &T) -> Option<bool> {
            let place = self.data.get_mut(frame * self.channels + channel)?;
            *place = value.clone();
            Some(false)
        }
    }
}
