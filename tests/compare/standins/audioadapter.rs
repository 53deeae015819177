// Stand-in for the crate audioadapter: the methods that the compared files use, no more.
pub trait Adapter<T> {
    fn channels(&self) -> usize;
    fn frames(&self) -> usize;
    fn read_sample(&self, channel: usize, frame: usize) -> Option<T>;

    // As many frames as the slice has room for and the buffer still holds.
    fn copy_from_channel_to_slice(&self, channel: usize, skip: usize, slice: &mut [T]) -> usize {
        let mut done = 0;
        for value in slice.iter_mut() {
            match self.read_sample(channel, skip + done) {
                Some(v) => *value = v,
                None => break,
            }
            done += 1;
        }
        done
    }
}

pub trait AdapterMut<T>: Adapter<T> {
    fn write_sample(&mut self, channel: usize, frame: usize, value: &T) -> Option<bool>;

    /// # Safety
    /// The place must exist.
    unsafe fn write_sample_unchecked(&mut self, channel: usize, frame: usize, value: &T) -> bool {
        self.write_sample(channel, frame, value).expect("a write inside the output")
    }

    fn copy_frames_within(&mut self, _src: usize, _dest: usize, _count: usize) -> Option<usize> {
        None
    }
}
