//! Shim: module list. build.sh makes `products_open.rs`: zixy's `products.rs` and one public
//! function more, to reach the private `count_before_each_set_bit`.

pub mod cmpnt;
pub mod cmpnt_list;
pub mod cmpnt_major;
pub mod cre_or_ann;
pub mod products;
pub mod products_open;
