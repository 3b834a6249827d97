//! Parts of texts, with as many lines as wanted.

pub fn window_lines(count: u32) -> String {
    (0..count).map(|i| format!("W,{},{}\n", 10 * i, 10 * i + 5)).collect()
}

pub fn train_lines(count: u32) -> String {
    "T,1,7\n".repeat(count as usize)
}

pub fn fixed_train_lines(count: u32) -> String {
    (0..count).map(|i| format!("X,1,{},{}\n", 10 * i, 10 * i + 5)).collect()
}

pub fn order_lines(count: u32) -> String {
    (1..=count).map(|j| format!("O,N{j},0,{},1\n", 3 * j)).collect()
}
