//! What stays when a gateway reads another configuration.
use crate::answers::whether;
use crate::sys;
use crate::Fault;
use alloc::vec;
use alloc::vec::Vec;

/// A link of a configuration. What a plan only compares has a number of your choice.
pub type PlanLink = sys::ipxr_plan_link;
/// What a new link is made from.
pub type PlanOrigin = sys::ipxr_plan_origin;
/// What becomes of an old link.
pub type PlanFate = sys::ipxr_plan_fate;

/// What stays.
#[derive(Clone, Debug, PartialEq, Eq)]
pub struct Plan {
    /// Whether the router stays.
    pub router_stays: bool,
    /// What each new link is made from.
    pub origins: Vec<PlanOrigin>,
    /// What becomes of each old link.
    pub fates: Vec<PlanFate>,
}

/// Plans what stays when a gateway with the links `old` gets the links `links`: `docs/RELOAD.md` has the rules. It takes
/// [`sys::IPXR_PLAN_STACK`] bytes of stack at most.
///
/// ```
/// use ipxr::{PlanLink, plan, sys};
///
/// let tunnel = PlanLink {
///     network: 0x10,
///     carrier: sys::IPXR_CARRIER_TUNNEL,
///     udp_port: 2130,
///     has_node: true,
///     node: [0, 0, 0, 0, 0, 1],
///     is_first: true,
///     ..PlanLink::ZERO
/// };
/// let same = plan(&[tunnel], &[tunnel])?;
/// assert!(same.router_stays);
/// assert_eq!(same.origins[0].tunnel, sys::IPXR_TUNNEL_STAYS);
/// let gone = plan(&[tunnel], &[])?;
/// assert!(gone.fates[0].is_closed);
/// # Ok::<(), ipxr::Fault>(())
/// ```
pub fn plan(old: &[PlanLink], links: &[PlanLink]) -> Result<Plan, Fault> {
    let mut origins = vec![PlanOrigin::ZERO; links.len()];
    let mut fates = vec![PlanFate::ZERO; old.len()];
    let (made_from, becomes) = (origins.as_mut_ptr(), fates.as_mut_ptr());
    // SAFETY: pointers and lengths are those of slices that lie apart.
    let stays =
        unsafe { sys::ipxr_plan(old.as_ptr(), old.len(), links.as_ptr(), links.len(), made_from, origins.len(), becomes, fates.len()) };
    Ok(Plan { router_stays: whether(stays)?, origins, fates })
}
