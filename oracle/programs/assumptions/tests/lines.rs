//! What becomes of one line of a function.

use assumptions::{checked, Checked};

/// The module that has this line in its only function.
fn with(line: &str) -> Result<Checked, String> {
    checked(&format!(
        "define internal noundef i64 @\"f\"(i64 noundef %a, ptr noundef %p) #0 {{\nstart:\n  {line}\n}}\n\n\
         attributes #0 = {{ nounwind \"target-cpu\"=\"x86-64\" }}\n\n!1 = !{{i8 3, i8 7}}\n!2 = !{{}}\n"
    ))
}

/// What stands in the function for this line, without the indentation.
fn lines(line: &str) -> Vec<String> {
    let text = with(line).unwrap_or_else(|error| panic!("{error}")).text;
    let body = text.split("\n}").next().unwrap_or_default();
    body.lines().skip(2).map(|line| line.trim().to_string()).collect()
}

/// A check is there, and the line without its assumption behind it.
#[track_caller]
fn is_checked(line: &str, check: &str, plain: &str) {
    let found = lines(line);
    assert!(found.iter().any(|line| line.contains(check)), "{found:?}");
    assert!(found.contains(&"call void @broken(i1 %check.1, i32 3)".to_string()), "{found:?}");
    assert_eq!(found.last().map(String::as_str), Some(plain));
}

#[test]
fn arithmetic() {
    is_checked(
        "%r = add nuw i64 %a, 1",
        "@llvm.uadd.with.overflow.i64(i64 %a, i64 1)",
        "%r = add i64 %a, 1",
    );
    is_checked(
        "%r = sub nuw i8 1, %a",
        "@llvm.usub.with.overflow.i8(i8 1, i8 %a)",
        "%r = sub i8 1, %a",
    );
    is_checked("%r = mul nuw i64 %a, %a", "@llvm.umul.with.overflow.i64", "%r = mul i64 %a, %a");
    is_checked("%r = sub nsw i64 0, %a", "@llvm.ssub.with.overflow.i64", "%r = sub i64 0, %a");
    is_checked(
        "%r = trunc nuw i64 %a to i8",
        "icmp ne i64 %check.1.back, %a",
        "%r = trunc i64 %a to i8",
    );
    is_checked("%r = udiv i64 4, %a", "icmp eq i64 %a, 0", "%r = udiv i64 4, %a");
    is_checked("%r = lshr i64 4, %a", "icmp uge i64 %a, 64", "%r = lshr i64 4, %a");
    is_checked("%r = shl nuw i64 %a, 3", "lshr i64 %check.1.shifted, 3", "%r = shl i64 %a, 3");
}

#[test]
fn memory() {
    is_checked(
        "%r = getelementptr inbounds nuw i8, ptr %p, i64 %a",
        "@llvm.uadd.with.overflow.i64(i64 %check.1.at, i64 %a)",
        "%r = getelementptr i8, ptr %p, i64 %a",
    );
    is_checked(
        "store i64 5, ptr %p, align 8",
        "and i64 %check.1.at, 7",
        "store i64 5, ptr %p, align 8",
    );
    is_checked(
        "%r = load double, ptr %p, align 8, !noundef !2",
        "and i64 %check.1.at, 7",
        "%r = load double, ptr %p, align 8",
    );
    let found = lines("%r = load i8, ptr %p, align 1, !range !1, !noundef !2");
    let expected = [
        "%r = load i8, ptr %p, align 1",
        "%check.1.above = sub i8 %r, 3",
        "%check.1 = icmp uge i8 %check.1.above, 4",
        "call void @broken(i1 %check.1, i32 3)",
    ];
    assert_eq!(found, expected);
}

#[test]
fn unreachable() {
    assert_eq!(lines("unreachable"), ["call void @broken(i1 true, i32 3)", "unreachable"]);
    let trap = "call void @llvm.trap()";
    assert_eq!(lines(&format!("{trap}\n  unreachable")), [trap, "unreachable"]);
}

#[test]
fn slots_are_filled() {
    let found = lines("%r = alloca [16 x i8], align 8");
    assert!(found[1].starts_with("call void @llvm.memset.p0.i64(ptr %r, i8 -91,"), "{found:?}");
}

#[test]
fn heads() {
    let text = with("ret i64 %a").unwrap_or_else(|error| panic!("{error}")).text;
    assert!(text.starts_with("define internal i64 @\"f\"(i64 %a, ptr %p) #0 {"), "{text}");
    assert!(text.contains("attributes #0 = { sanitize_address nounwind"), "{text}");
}

#[test]
fn what_assumes_nothing_goes_through() {
    let kept = [
        "%r = extractvalue { i8, i64 } %b, 1",
        "%r = call { i8, i64 } @\"g\"(ptr %p)",
        "%r = call double @llvm.arithmetic.fence.f64(double %d)",
    ];
    for line in kept {
        assert_eq!(lines(line), [line]);
    }
}

#[test]
fn what_is_not_known_is_refused() {
    let lines = [
        "%r = or disjoint i64 %a, 1",
        "%r = udiv exact i64 %a, 2",
        "%r = lshr exact i64 %a, 2",
        "%r = zext nneg i8 %a to i64",
        "%r = icmp samesign ult i64 %a, 1",
        "%r = fadd nnan double 1.0, 2.0",
        "%r = sdiv i64 %a, 2",
        "%r = fptoui double 1.0 to i64",
        "%r = getelementptr inbounds i8, ptr %p, i64 %a",
        "%r = getelementptr inbounds nuw i64, ptr %p, i64 %a",
        "%r = load i64, ptr %p, align 8, !nonnull !2",
        "%r = load volatile i64, ptr %p, align 8",
        "%r = load i8, ptr %p, align 1, !range !9",
        "%r = call i64 @g(ptr nonnull %p)",
        "%r = call i64 @g(ptr %p) #4",
        "%r = tail call i64 @g(ptr %p)",
        "call void @llvm.assume(i1 true)",
        "%r = add i64 %a, undef",
        "%r = insertvalue { i8, i64 } poison, i8 1, 0",
    ];
    for line in lines {
        assert!(with(line).is_err(), "{line}");
    }
}

#[test]
fn promises_of_functions_are_refused() {
    let define = |head: &str, attribute: &str| {
        checked(&format!("{head} {{\n  ret void\n}}\nattributes #0 = {{ {attribute} }}\n"))
    };
    assert!(define("define void @f(ptr %p) #0", "nounwind").is_ok());
    assert!(define("define { i8, i64 } @f(ptr %p) #0", "nounwind").is_ok());
    assert!(define("define void @f(ptr nonnull %p) #0", "nounwind").is_err());
    assert!(define("define void @f(ptr noalias %p) #0", "nounwind").is_err());
    assert!(define("define void @f(ptr %p) #0", "nounwind willreturn").is_err());
    assert!(define("define void @f(ptr %p) nounwind #0", "nounwind").is_err());
    assert!(checked("declare void @llvm.trap() #2\n").is_ok());
    assert!(checked("declare void @f(ptr) #2\n").is_err());
}
