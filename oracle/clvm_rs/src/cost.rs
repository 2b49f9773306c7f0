pub type Cost = u64;
