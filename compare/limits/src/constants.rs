//! The constants of niranbok.h.

use crate::table::{Kind, Row, KINDS};

/// Names without `NIRANBOK_`, in small letters, and their numbers.
pub struct Constants(Vec<(String, u64)>);

impl Constants {
    pub fn new(header: &str) -> Constants {
        let defined = |line: &str| {
            let (name, rest) = line.strip_prefix("#define NIRANBOK_")?.split_once(' ')?;
            let number = rest.split_whitespace().next()?.parse().ok()?;
            Some((name.to_lowercase(), number))
        };
        Constants(header.lines().filter_map(defined).collect())
    }

    fn get(&self, name: &str) -> Option<u64> {
        let found = self.0.iter().find(|(named, _)| named == name);
        found.map(|(_, number)| *number)
    }

    /// The fields that have a range.
    pub fn ranges(&self) -> Vec<String> {
        let fields = self
            .0
            .iter()
            .filter_map(|(name, _)| name.strip_suffix("_first"));
        let whole = |name: &str| {
            let cut = |kind: &Kind| name.strip_suffix(kind.name)?.strip_suffix('_');
            KINDS.iter().find_map(cut).unwrap_or(name).to_string()
        };
        fields.map(whole).collect()
    }

    /// The range of a field in a kind of header that has it.
    fn range(&self, name: &str, kind: &str) -> Option<(u64, u64)> {
        let ends = |name: &str| {
            let first = self.get(&format!("{name}_first"))?;
            Some((first, self.get(&format!("{name}_last"))?))
        };
        ends(&format!("{name}_{kind}")).or_else(|| ends(name))
    }

    /// Where niranbok.h says something else of a value than the table does: by
    /// the field's range, if the kind has it, and by the refusals' names.
    pub fn differ(&self, row: &Row, kind: Kind, value: u64, refusal: u8) -> Option<String> {
        let name = &row.name;
        let refusals = || {
            self.0
                .iter()
                .filter(|(name, _)| name.starts_with("refused_"))
        };
        if refusal != 0 && !refusals().any(|(_, number)| *number == u64::from(refusal)) {
            return Some(format!("{name}: niranbok.h has no refusal {refusal}"));
        }
        let Some((first, last)) = self.range(name, kind.name) else {
            return Some(format!("{name}: niranbok.h has no range"));
        };
        // A field that this kind does not have holds zeros, which the table's row says.
        if row.of(kind)?.is_absent() {
            return None;
        }
        let allowed = first <= value && value <= last;
        let kind = kind.name;
        let said = || format!("{name} {value}, {kind}: niranbok.h allows {first} to {last}");
        (allowed != (refusal == 0)).then(said)
    }
}
