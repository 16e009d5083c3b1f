//! What the original does outside the compared domain, each time with a smallest input. The
//! observed outcomes stand in docs/DIFFERENCES.md.

mod keys;
mod scene;
mod schemas;
mod updates;
mod values;

pub fn print_all() {
    // A panic is one of the outcomes, and `Scene::attempt` prints it.
    std::panic::set_hook(Box::new(|_| ()));
    values::integers_and_floats();
    values::minus_zero_deleted();
    values::minus_zero_updated();
    values::minus_zero_and_nans_stored();
    values::nans_looked_up();
    keys::deleted_with_a_float();
    keys::other_kind_read();
    updates::old_key_of_another_kind();
    updates::absent_row();
    updates::absent_row_refused();
    updates::short_row();
    updates::keys_not_rising();
    schemas::column_name_twice();
    schemas::lookup_without_index();
    schemas::map_columns();
}
