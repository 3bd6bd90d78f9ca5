//! One text of a solver, once with `use hybit_precond` and once with `use dropin`: the same numbers, figures and errors.
use cases::{Case, answers, draw, refusal};
use hybit_core::{HybitError, LinearOperator, Preconditioner, dot, l2_norm};
use hybit_matrix::Csr32Matrix;
use hybit_precond::{TwoLevelAggregation, TwoLevelBasis, TwoLevelCoarseApplyPolicy};

type Policies = (TwoLevelAggregation, TwoLevelBasis, TwoLevelCoarseApplyPolicy);
/// What a preconditioner tells of itself, the iterations with it, and the bits of the solution.
type Figures = Result<(String, usize, Vec<u64>), HybitError>;

macro_rules! solver {
    ($name:ident uses $precond:ident) => {
        mod $name {
            use super::{Csr32Matrix, Figures, Policies, solve};
            use $precond::*;

            pub fn blocks(a: &Csr32Matrix, block: usize) -> Figures {
                let p = BlockJacobiPreconditioner::from_csr32(a, block)?.clone();
                solve(a, &p, format!("{} {}", p.block_size(), p.block_count()))
            }

            pub fn two_level(a: &Csr32Matrix, dofs: usize, nodes: usize, (g, b, c): Policies) -> Vec<Figures> {
                type P = TwoLevelBlockJacobiPreconditioner;
                let built = [
                    P::from_csr32(a, dofs, nodes),
                    P::from_csr32_with_policy(a, dofs, nodes, c),
                    P::from_csr32_graph_with_policy(a, dofs, nodes, c),
                    P::from_csr32_with_aggregation_and_policy(a, dofs, nodes, g, c),
                    P::from_csr32_with_aggregation_basis_and_policy(a, dofs, nodes, g, b, c),
                    P::from_csr32_with_aggregation_basis_and_policies(a, dofs, nodes, g, b, c, TwoLevelTransferApplyPolicy::Serial),
                    P::from_csr32_with_aggregation_basis_and_transfer_options(a, dofs, nodes, g, b, c, TwoLevelTransferOptions::default()),
                ];
                built.into_iter().map(|p| p.and_then(|p| solve(a, &p.clone(), told(&p)))).collect()
            }

            fn told(p: &TwoLevelBlockJacobiPreconditioner) -> String {
                let sizes = (p.dofs_per_node(), p.aggregate_nodes(), p.aggregate_count(), p.min_aggregate_nodes(), p.max_aggregate_nodes());
                let policies = (p.aggregation(), p.basis(), p.coarse_apply_policy());
                let transfer = (p.transfer_apply_policy(), p.transfer_storage_policy(), p.transfer_value_storage_policy());
                let numbers = (p.coarse_dimension(), p.transfer_nnz(), p.smoothing_omega().to_bits());
                format!("{sizes:?} {policies:?} {transfer:?} {numbers:?} {}", p.coarse_dimension() < EXPLICIT_INVERSE_AUTO_MIN_COARSE_DIMENSION)
            }
        }
    };
}

solver!(source uses hybit_precond);
solver!(ours uses dropin);

/// Preconditioned conjugate gradients, for at most 100 iterations.
fn solve(a: &Csr32Matrix, m: &dyn Preconditioner, told: String) -> Figures {
    let n = m.len();
    let b: Vec<f64> = (0..n).map(|i| ((i * 7) % 13) as f64 - 6.0).collect();
    // Vectors of wrong length first.
    for (r, z) in [(n + 1, n), (n, n + 1)] {
        let e = m.apply(&vec![0.0; r], &mut vec![0.0; z]).unwrap_err();
        assert_eq!(e, HybitError::DimensionMismatch { expected: n, actual: n + 1 });
    }
    let (mut x, mut r, mut z, mut q) = (vec![0.0; n], b.clone(), vec![0.0; n], vec![0.0; n]);
    m.apply(&r, &mut z)?;
    let mut p = z.clone();
    let mut rz = dot(&r, &z);
    let mut k = 0;
    while k < 100 && l2_norm(&r) > 1e-10 * l2_norm(&b) {
        a.apply(&p, &mut q)?;
        let step = rz / dot(&p, &q);
        for i in 0..n {
            x[i] += step * p[i];
            r[i] -= step * q[i];
        }
        m.apply(&r, &mut z)?;
        let next = dot(&r, &z);
        for i in 0..n {
            p[i] = z[i] + next / rz * p[i];
        }
        rz = next;
        k += 1;
    }
    // Every NaN counts as the same.
    let bits = |v: &f64| if v.is_nan() { f64::NAN.to_bits() } else { v.to_bits() };
    Ok((format!("{told} {}", m.is_empty()), k, x.iter().map(bits).collect()))
}

/// Two chains of 150 nodes, three unknowns a node.
fn chains() -> Csr32Matrix {
    let (mut ptr, mut col, mut val) = (vec![0], vec![], vec![]);
    for i in 0..900u32 {
        let (v, k) = (i / 3, i % 3);
        for w in [v.wrapping_sub(1), v, v + 1] {
            if w < 300 && w / 150 == v / 150 {
                for j in 0..3 {
                    if w == v || j == k {
                        col.push(3 * w + j);
                        val.push(if w != v { -1.0 } else if j == k { 2.2 + k as f64 } else { 0.25 });
                    }
                }
            }
        }
        ptr.push(col.len() as u32);
    }
    Csr32Matrix::new(900, 900, ptr, col, val).unwrap()
}

fn policies() -> impl Iterator<Item = Policies> {
    (0..18).map(|k| (answers::aggregation(k / 6), answers::basis(k / 3 % 2), answers::policy(k % 3)))
}

#[test]
fn the_same_numbers_and_figures() {
    let a = chains();
    for block in [1, 3, 7] {
        let (source, ours) = (source::blocks(&a, block).unwrap(), ours::blocks(&a, block).unwrap());
        assert!(source.1 > 5, "{}", source.1);
        assert_eq!(source, ours);
    }
    for chosen in policies() {
        let (source, ours) = (source::two_level(&a, 3, 10, chosen), ours::two_level(&a, 3, 10, chosen));
        assert!(source.iter().flatten().all(|f| f.1 > 5 && f.1 < 100) && source.iter().all(Result::is_ok));
        assert_eq!(source, ours);
    }
}

#[test]
fn the_same_errors() {
    let mut met = std::collections::BTreeSet::new();
    for seed in 0..4_000 {
        let Case::TwoLevel { a, options: o, .. } = draw::two_level(seed, 10) else { unreachable!() };
        let Ok(m) = answers::matrix(&a) else { continue };
        let chosen = (answers::aggregation(o.aggregation), answers::basis(o.basis), answers::policy(o.policy));
        let (source, ours) = (source::two_level(&m, o.block, o.group, chosen), ours::two_level(&m, o.block, o.group, chosen));
        source.iter().flat_map(|f| f.as_ref().err()).for_each(|e| _ = met.insert(refusal::of(e).number));
        assert_eq!(source, ours, "seed {seed}");
        assert_eq!(source::blocks(&m, o.block), ours::blocks(&m, o.block), "seed {seed}");
    }
    assert!([9, 10, 11, 12, 14, 15, 16, 22, 23, 24].iter().all(|n| met.contains(n)), "{met:?}");
}

#[test]
fn what_the_library_adds() {
    use dropin::*;
    use hybit_core::HybitError::{InvalidArgument, InvalidMatrix};
    let a = chains();
    let build = |a: &Csr32Matrix, dofs, nodes| TwoLevelBlockJacobiPreconditioner::from_csr32(a, dofs, nodes).unwrap_err();
    assert_eq!(build(&a, 9, 10), InvalidArgument("the library takes at most 8 unknowns a node"));
    assert_eq!(build(&a, 3, 1 << 21), InvalidArgument("the library takes at most 1,048,576 nodes an aggregate"));
    let n = (1 << 20) + 1;
    let diagonal = |n: u32| Csr32Matrix::new(n as usize, n as usize, (0..=n).collect(), (0..n).collect(), vec![1.0; n as usize]).unwrap();
    assert_eq!(build(&diagonal(n), 1, 1 << 20), InvalidMatrix("the library takes at most 1,048,576 rows and 16,777,216 entries"));
    assert_eq!(build(&diagonal(2049), 1, 1), InvalidArgument("the library takes a coarse dimension of at most 2,048"));
    let plain = TwoLevelTransferOptions::default();
    for transfer_options in [
        TwoLevelTransferOptions { apply_policy: TwoLevelTransferApplyPolicy::Parallel, ..plain },
        TwoLevelTransferOptions { storage_policy: TwoLevelTransferStoragePolicy::Compact, ..plain },
        TwoLevelTransferOptions { storage_policy: TwoLevelTransferStoragePolicy::Auto, ..plain },
        TwoLevelTransferOptions { value_storage_policy: TwoLevelTransferValueStoragePolicy::F32, ..plain },
        TwoLevelTransferOptions { value_storage_policy: TwoLevelTransferValueStoragePolicy::Auto, ..plain },
    ] {
        for (g, b, c) in policies() {
            let built = TwoLevelBlockJacobiPreconditioner::from_csr32_with_aggregation_basis_and_transfer_options(&a, 3, 10, g, b, c, transfer_options);
            assert_eq!(built.unwrap_err(), InvalidArgument("the library has no transfer policy but Serial, Wide and F64"));
        }
    }
}
