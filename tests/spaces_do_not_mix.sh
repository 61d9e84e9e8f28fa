#!/usr/bin/env bash
# Puts misuses of forms and vectors at the end of a copy of the crate `spaces`, outside the gate, some ten seconds for
# each: a value of one space handed in where one of another is asked for must not compile.
set -u
cd "$(dirname "$0")/.." || exit 1
copy=$(mktemp -d)
trap 'rm -rf "$copy"' EXIT
mkdir "$copy/crates"
grep -E '^(sequence|exact_math|exact_vectors|spaces):' crates.txt >"$copy/crates.txt"
for crate in sequence exact_math exact_vectors spaces; do
    mkdir "$copy/crates/$crate"
    for part in src specs proofs; do
        if [[ -e crates/$crate/$part ]]; then cp -r "crates/$crate/$part" "$copy/crates/$crate/"; fi
    done
done

# refuses CODE MESSAGE [FILE]
refuses() {
    file=crates/spaces/src/${3:-form.rt}
    cp "$file" "$copy/$file"
    printf '%s\n' "$1" >>"$copy/$file"
    said=$(cd "$copy/crates/spaces" && rt check 2>&1)
    if [[ $said != *"error[mismatched-types]: $2"* ]]; then
        printf 'not refused:\n%s\n%s\n' "$1" "$said"
        exit 1
    fi
    cp "$file" "$copy/$file"
}

refuses 'pub fn at_another_space(form: &Form<crate::Original>, v: &Vect<crate::Kernel>) -> Result<i128, WideEntry>
    requires { length form.now ≡ length v.now }
{
    form.at(v)
}' 'expected `&Vect<Original>`, found `&Vect<Kernel>`'

refuses 'pub fn form_of_another_space(form: Form<crate::Kernel>) -> Form<crate::Original> {
    form
}' 'expected `Form<Original>`, found `Form<Kernel>`'

refuses 'pub fn vector_of_another_space(v: Vect<crate::Work>) -> Vect<crate::Original> {
    v
}' 'expected `Vect<Original>`, found `Vect<Work>`'

refuses 'pub fn vector_for_a_form(form: &Form<crate::Original>) -> Result<i128, WideEntry>
    requires { length form.now ≡ length form.now }
{
    form.at(form)
}' 'expected `&Vect<Original>`, found `&Form<Original>`'

refuses 'pub fn pulled_form_of_another_space(
    alloc: Global,
    map: &Affine<crate::Work, crate::Original>,
    form: &Form<crate::Kernel>,
) -> Result<Pulled<crate::Work>, MapStop>
    requires { length form.now ≡ length map.now.base }
{
    map.pull_back(alloc, form)
}' 'expected `&Form<Original>`, found `&Form<Kernel>`' affine.rt
echo "five misuses do not compile"
