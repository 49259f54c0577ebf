//! The model: document 002's `initl`, `dscom`, `dsinit`, `sgp4init`, `dspace`,
//! `dpper` and `sgp4`, with its names, its order of operations and its
//! constants, read left to right with one rounding per operation.
//!
//! Two things are put differently. `sgp4` leaves the record alone: what 002
//! writes back into it for deep space (aycof, xlcof, con41, x1mth2, x7thm1) is
//! read again only after it was written again. And the integrator's position
//! (atime, xli, xni) is a value of its own, [`Position`], so that a request may
//! start from the epoch, as in 002, or from a position saved before.

// Literals and comparisons stand as 002 has them; a comparison with NaN is false.
#![allow(clippy::excessive_precision, clippy::manual_range_contains)]

use crate::elementary::{fmod, Elementary, PI, TWOPI};
use crate::instant;
use crate::tle::{Exponential, Record};

// WGS-72, as 002's getgravconst computes it.
pub const MU: f64 = 398600.8;
pub const RADIUSEARTHKM: f64 = 6378.135;
pub const J2: f64 = 0.001082616;
pub const J3: f64 = -0.00000253881;
pub const J4: f64 = -0.00000165597;
pub const J3OJ2: f64 = J3 / J2;
/// 60 divided by the root of radius cubed over mu (tested below).
pub const XKE: f64 = 0.07436691613317342;
const VKMPERSEC: f64 = RADIUSEARTHKM * XKE / 60.0;
const X2O3: f64 = 2.0 / 3.0;
/// `1.0 + cos(pi-1.0e-9)`: the cosine rounds to -1 (tested below).
const TEMP4: f64 = 0.0;

const DEG2RAD: f64 = PI / 180.0;
const XPDOTP: f64 = 1440.0 / (2.0 * PI);

// Rates and eccentricities of sun and moon, and the rotation of the Earth.
const ZNS: f64 = 1.19459e-5;
const ZES: f64 = 0.01675;
const ZNL: f64 = 1.5835218e-4;
const ZEL: f64 = 0.05490;
const RPTIM: f64 = 4.37526908801129966e-3;

/// The integrator's stride, in minutes, forward and backward.
pub const STEPP: f64 = 720.0;
const STEPN: f64 = -720.0;
const STEP2: f64 = 259200.0;

// --------------------------------------------------------------- elements

/// What `twoline2rv` hands to `sgp4init`: days, radians, radians per minute.
#[derive(Clone, Copy, Debug)]
pub struct Elements {
    pub epoch: f64,
    pub bstar: f64,
    pub ecco: f64,
    pub argpo: f64,
    pub inclo: f64,
    pub mo: f64,
    pub no: f64,
    pub nodeo: f64,
}

/// mantissa * 10^(exponent - 5), rounded once.
pub fn exponential(x: Exponential) -> f64 {
    let mantissa = x.mantissa as i64;
    let places = 5 - x.exponent as i32;
    if places >= 0 {
        mantissa as f64 / 10i64.pow(places as u32) as f64
    } else {
        (mantissa * 10i64.pow(places.unsigned_abs())) as f64
    }
}

fn radians(ten_thousandths: u32) -> f64 {
    ten_thousandths as f64 / 10_000.0 * DEG2RAD
}

impl Elements {
    pub fn of(record: &Record) -> Elements {
        Elements {
            epoch: instant::epoch_days(record.epoch()),
            bstar: exponential(record.bstar),
            ecco: record.eccentricity as f64 / 10_000_000.0,
            argpo: radians(record.perigee),
            inclo: radians(record.inclination),
            mo: radians(record.anomaly),
            no: record.motion as f64 / 100_000_000.0 / XPDOTP,
            nodeo: radians(record.node),
        }
    }
}

// ----------------------------------------------------------------- record

/// 002's `elsetrec`: what set-up keeps.
#[derive(Clone, Copy, Debug, Default)]
pub struct Satrec {
    /// 'd' in 002.
    pub deep: bool,
    pub isimp: bool,
    /// 0 none, 1 one day, 2 half day.
    pub irez: u8,

    pub bstar: f64,
    pub inclo: f64,
    pub nodeo: f64,
    pub ecco: f64,
    pub argpo: f64,
    pub mo: f64,
    pub no: f64,
    pub gsto: f64,

    pub aycof: f64,
    pub con41: f64,
    pub cc1: f64,
    pub cc4: f64,
    pub cc5: f64,
    pub d2: f64,
    pub d3: f64,
    pub d4: f64,
    pub delmo: f64,
    pub eta: f64,
    pub argpdot: f64,
    pub omgcof: f64,
    pub sinmao: f64,
    pub t2cof: f64,
    pub t3cof: f64,
    pub t4cof: f64,
    pub t5cof: f64,
    pub x1mth2: f64,
    pub x7thm1: f64,
    pub mdot: f64,
    pub nodedot: f64,
    pub xlcof: f64,
    pub xmcof: f64,
    pub nodecf: f64,

    pub periodics: Periodics,
    pub resonance: Resonance,
}

/// The deep-space numbers of `dscom` that `dpper` reads. 002's peo, pinco, plo,
/// pgho and pho are zero at set-up and stay so.
#[derive(Clone, Copy, Debug, Default)]
pub struct Periodics {
    pub e3: f64,
    pub ee2: f64,
    pub peo: f64,
    pub pgho: f64,
    pub pho: f64,
    pub pinco: f64,
    pub plo: f64,
    pub se2: f64,
    pub se3: f64,
    pub sgh2: f64,
    pub sgh3: f64,
    pub sgh4: f64,
    pub sh2: f64,
    pub sh3: f64,
    pub si2: f64,
    pub si3: f64,
    pub sl2: f64,
    pub sl3: f64,
    pub sl4: f64,
    pub xgh2: f64,
    pub xgh3: f64,
    pub xgh4: f64,
    pub xh2: f64,
    pub xh3: f64,
    pub xi2: f64,
    pub xi3: f64,
    pub xl2: f64,
    pub xl3: f64,
    pub xl4: f64,
    pub zmol: f64,
    pub zmos: f64,
}

/// The deep-space numbers of `dsinit` that `dspace` reads.
#[derive(Clone, Copy, Debug, Default)]
pub struct Resonance {
    pub d2201: f64,
    pub d2211: f64,
    pub d3210: f64,
    pub d3222: f64,
    pub d4410: f64,
    pub d4422: f64,
    pub d5220: f64,
    pub d5232: f64,
    pub d5421: f64,
    pub d5433: f64,
    pub dedt: f64,
    pub del1: f64,
    pub del2: f64,
    pub del3: f64,
    pub didt: f64,
    pub dmdt: f64,
    pub dnodt: f64,
    pub domdt: f64,
    pub xfact: f64,
    pub xlamo: f64,
}

/// The integrator's position: minutes from the epoch, and the integrated pair.
#[derive(Clone, Copy, Debug, Default)]
pub struct Position {
    pub atime: f64,
    pub xli: f64,
    pub xni: f64,
}

impl Satrec {
    /// The integrator's position at the epoch (zeros without resonance).
    pub fn at_epoch(&self) -> Position {
        if self.irez == 0 {
            Position::default()
        } else {
            Position { atime: 0.0, xli: self.resonance.xlamo, xni: self.no }
        }
    }

    /// Every f64 that set-up keeps.
    #[rustfmt::skip]
    pub fn numbers(&self) -> [f64; 85] {
        let s = self;
        let p = &self.periodics;
        let r = &self.resonance;
        let start = self.at_epoch();
        [
            s.bstar, s.inclo, s.nodeo, s.ecco, s.argpo, s.mo, s.no, s.gsto,
            s.aycof, s.con41, s.cc1, s.cc4, s.cc5, s.d2, s.d3, s.d4, s.delmo, s.eta, s.argpdot, s.omgcof,
            s.sinmao, s.t2cof, s.t3cof, s.t4cof, s.t5cof, s.x1mth2, s.x7thm1, s.mdot, s.nodedot, s.xlcof,
            s.xmcof, s.nodecf,
            p.e3, p.ee2, p.peo, p.pgho, p.pho, p.pinco, p.plo, p.se2, p.se3, p.sgh2, p.sgh3, p.sgh4, p.sh2,
            p.sh3, p.si2, p.si3, p.sl2, p.sl3, p.sl4, p.xgh2, p.xgh3, p.xgh4, p.xh2, p.xh3, p.xi2, p.xi3,
            p.xl2, p.xl3, p.xl4, p.zmol, p.zmos,
            r.d2201, r.d2211, r.d3210, r.d3222, r.d4410, r.d4422, r.d5220, r.d5232, r.d5421, r.d5433,
            r.dedt, r.del1, r.del2, r.del3, r.didt, r.dmdt, r.dnodt, r.domdt, r.xfact, r.xlamo,
            start.xli, start.xni,
        ]
    }
}

fn cube(x: f64) -> f64 {
    x * x * x
}

fn fourth(x: f64) -> f64 {
    x * x * x * x
}

// ------------------------------------------------------------------ initl

/// `initl`'s outputs.
#[derive(Clone, Copy, Debug)]
pub struct Initl {
    pub no: f64,
    pub ao: f64,
    pub con41: f64,
    pub con42: f64,
    pub cosio: f64,
    pub cosio2: f64,
    pub eccsq: f64,
    pub omeosq: f64,
    pub posq: f64,
    pub rp: f64,
    pub rteosq: f64,
    pub sinio: f64,
    pub gsto: f64,
}

pub fn initl<E: Elementary>(ecco: f64, epoch: f64, inclo: f64, no: f64) -> Initl {
    let eccsq = ecco * ecco;
    let omeosq = 1.0 - eccsq;
    let rteosq = E::sqrt(omeosq);
    let (sinio, cosio) = E::sin_cos(inclo);
    let cosio2 = cosio * cosio;

    // un-kozai the mean motion
    let ak = E::pow_two_thirds(XKE / no);
    let d1 = 0.75 * J2 * (3.0 * cosio2 - 1.0) / (rteosq * omeosq);
    let del = d1 / (ak * ak);
    let adel = ak * (1.0 - del * del - del * (1.0 / 3.0 + 134.0 * del * del / 81.0));
    let del = d1 / (adel * adel);
    let no = no / (1.0 + del);

    let ao = E::pow_two_thirds(XKE / no);
    let po = ao * omeosq;
    let con42 = 1.0 - 5.0 * cosio2;
    let con41 = -con42 - cosio2 - cosio2;
    let posq = po * po;
    let rp = ao * (1.0 - ecco);
    let gsto = instant::gstime(epoch + 2433281.5);
    Initl { no, ao, con41, con42, cosio, cosio2, eccsq, omeosq, posq, rp, rteosq, sinio, gsto }
}

// ------------------------------------------------------------------ dscom

/// The terms that one pass of `dscom`'s loop computes, for the sun or the moon.
#[derive(Clone, Copy, Debug, Default)]
struct Pass {
    s1: f64,
    s2: f64,
    s3: f64,
    s4: f64,
    s5: f64,
    s6: f64,
    s7: f64,
    z1: f64,
    z2: f64,
    z3: f64,
    z11: f64,
    z12: f64,
    z13: f64,
    z21: f64,
    z22: f64,
    z23: f64,
    z31: f64,
    z32: f64,
    z33: f64,
}

/// The orientation of the sun's or the moon's orbit, and its strength.
struct Body {
    zcosg: f64,
    zsing: f64,
    zcosi: f64,
    zsini: f64,
    zcosh: f64,
    zsinh: f64,
    cc: f64,
}

/// `dscom`'s outputs that `dsinit` and the record need.
struct Dscom {
    sinim: f64,
    cosim: f64,
    em: f64,
    emsq: f64,
    nm: f64,
    /// ss1.., sz1.. in 002.
    solar: Pass,
    /// s1.., z1.. in 002.
    lunar: Pass,
    periodics: Periodics,
}

/// What both passes share.
struct Orbit {
    sinim: f64,
    cosim: f64,
    sinomm: f64,
    cosomm: f64,
    em: f64,
    emsq: f64,
    betasq: f64,
    rtemsq: f64,
    xnoi: f64,
}

fn dscom_pass(o: &Orbit, b: &Body) -> Pass {
    let Orbit { sinim, cosim, sinomm, cosomm, em, emsq, betasq, rtemsq, xnoi } = *o;
    let Body { zcosg, zsing, zcosi, zsini, zcosh, zsinh, cc } = *b;
    let a1 = zcosg * zcosh + zsing * zcosi * zsinh;
    let a3 = -zsing * zcosh + zcosg * zcosi * zsinh;
    let a7 = -zcosg * zsinh + zsing * zcosi * zcosh;
    let a8 = zsing * zsini;
    let a9 = zsing * zsinh + zcosg * zcosi * zcosh;
    let a10 = zcosg * zsini;
    let a2 = cosim * a7 + sinim * a8;
    let a4 = cosim * a9 + sinim * a10;
    let a5 = -sinim * a7 + cosim * a8;
    let a6 = -sinim * a9 + cosim * a10;

    let x1 = a1 * cosomm + a2 * sinomm;
    let x2 = a3 * cosomm + a4 * sinomm;
    let x3 = -a1 * sinomm + a2 * cosomm;
    let x4 = -a3 * sinomm + a4 * cosomm;
    let x5 = a5 * sinomm;
    let x6 = a6 * sinomm;
    let x7 = a5 * cosomm;
    let x8 = a6 * cosomm;

    let z31 = 12.0 * x1 * x1 - 3.0 * x3 * x3;
    let z32 = 24.0 * x1 * x2 - 6.0 * x3 * x4;
    let z33 = 12.0 * x2 * x2 - 3.0 * x4 * x4;
    let z1 = 3.0 * (a1 * a1 + a2 * a2) + z31 * emsq;
    let z2 = 6.0 * (a1 * a3 + a2 * a4) + z32 * emsq;
    let z3 = 3.0 * (a3 * a3 + a4 * a4) + z33 * emsq;
    let z11 = -6.0 * a1 * a5 + emsq * (-24.0 * x1 * x7 - 6.0 * x3 * x5);
    let z12 = -6.0 * (a1 * a6 + a3 * a5) + emsq * (-24.0 * (x2 * x7 + x1 * x8) - 6.0 * (x3 * x6 + x4 * x5));
    let z13 = -6.0 * a3 * a6 + emsq * (-24.0 * x2 * x8 - 6.0 * x4 * x6);
    let z21 = 6.0 * a2 * a5 + emsq * (24.0 * x1 * x5 - 6.0 * x3 * x7);
    let z22 = 6.0 * (a4 * a5 + a2 * a6) + emsq * (24.0 * (x2 * x5 + x1 * x6) - 6.0 * (x4 * x7 + x3 * x8));
    let z23 = 6.0 * a4 * a6 + emsq * (24.0 * x2 * x6 - 6.0 * x4 * x8);
    let z1 = z1 + z1 + betasq * z31;
    let z2 = z2 + z2 + betasq * z32;
    let z3 = z3 + z3 + betasq * z33;
    let s3 = cc * xnoi;
    let s2 = -0.5 * s3 / rtemsq;
    let s4 = s3 * rtemsq;
    let s1 = -15.0 * em * s4;
    let s5 = x1 * x3 + x2 * x4;
    let s6 = x2 * x3 + x1 * x4;
    let s7 = x2 * x4 - x1 * x3;
    Pass { s1, s2, s3, s4, s5, s6, s7, z1, z2, z3, z11, z12, z13, z21, z22, z23, z31, z32, z33 }
}

fn dscom<E: Elementary>(el: &Elements, np: f64) -> Dscom {
    const C1SS: f64 = 2.9864797e-6;
    const C1L: f64 = 4.7968065e-7;
    const ZSINIS: f64 = 0.39785416;
    const ZCOSIS: f64 = 0.91744867;
    const ZCOSGS: f64 = 0.1945905;
    const ZSINGS: f64 = -0.98088458;
    let tc = 0.0;

    let nm = np;
    let em = el.ecco;
    let (snodm, cnodm) = E::sin_cos(el.nodeo);
    let (sinomm, cosomm) = E::sin_cos(el.argpo);
    let (sinim, cosim) = E::sin_cos(el.inclo);
    let emsq = em * em;
    let betasq = 1.0 - emsq;
    let rtemsq = E::sqrt(betasq);

    // initialize lunar solar terms
    let day = el.epoch + 18261.5 + tc / 1440.0;
    let xnodce = fmod(4.5236020 - 9.2422029e-4 * day, TWOPI);
    let (stem, ctem) = E::sin_cos(xnodce);
    let zcosil = 0.91375164 - 0.03568096 * ctem;
    let zsinil = E::sqrt(1.0 - zcosil * zcosil);
    let zsinhl = 0.089683511 * stem / zsinil;
    let zcoshl = E::sqrt(1.0 - zsinhl * zsinhl);
    let gam = 5.8351514 + 0.0019443680 * day;
    let zx = 0.39785416 * stem / zsinil;
    let zy = zcoshl * ctem + 0.91744867 * zsinhl * stem;
    let zx = E::atan2(zx, zy);
    let zx = gam + zx - xnodce;
    let (zsingl, zcosgl) = E::sin_cos(zx);

    let xnoi = 1.0 / nm;
    let orbit = Orbit { sinim, cosim, sinomm, cosomm, em, emsq, betasq, rtemsq, xnoi };
    let sun = Body {
        zcosg: ZCOSGS,
        zsing: ZSINGS,
        zcosi: ZCOSIS,
        zsini: ZSINIS,
        zcosh: cnodm,
        zsinh: snodm,
        cc: C1SS,
    };
    let moon = Body {
        zcosg: zcosgl,
        zsing: zsingl,
        zcosi: zcosil,
        zsini: zsinil,
        zcosh: zcoshl * cnodm + zsinhl * snodm,
        zsinh: snodm * zcoshl - cnodm * zsinhl,
        cc: C1L,
    };
    let solar = dscom_pass(&orbit, &sun);
    let lunar = dscom_pass(&orbit, &moon);

    let zmol = fmod(4.7199672 + 0.22997150 * day - gam, TWOPI);
    let zmos = fmod(6.2565837 + 0.017201977 * day, TWOPI);
    let (s, l) = (&solar, &lunar);
    let periodics = Periodics {
        // solar terms
        se2: 2.0 * s.s1 * s.s6,
        se3: 2.0 * s.s1 * s.s7,
        si2: 2.0 * s.s2 * s.z12,
        si3: 2.0 * s.s2 * (s.z13 - s.z11),
        sl2: -2.0 * s.s3 * s.z2,
        sl3: -2.0 * s.s3 * (s.z3 - s.z1),
        sl4: -2.0 * s.s3 * (-21.0 - 9.0 * emsq) * ZES,
        sgh2: 2.0 * s.s4 * s.z32,
        sgh3: 2.0 * s.s4 * (s.z33 - s.z31),
        sgh4: -18.0 * s.s4 * ZES,
        sh2: -2.0 * s.s2 * s.z22,
        sh3: -2.0 * s.s2 * (s.z23 - s.z21),
        // lunar terms
        ee2: 2.0 * l.s1 * l.s6,
        e3: 2.0 * l.s1 * l.s7,
        xi2: 2.0 * l.s2 * l.z12,
        xi3: 2.0 * l.s2 * (l.z13 - l.z11),
        xl2: -2.0 * l.s3 * l.z2,
        xl3: -2.0 * l.s3 * (l.z3 - l.z1),
        xl4: -2.0 * l.s3 * (-21.0 - 9.0 * emsq) * ZEL,
        xgh2: 2.0 * l.s4 * l.z32,
        xgh3: 2.0 * l.s4 * (l.z33 - l.z31),
        xgh4: -18.0 * l.s4 * ZEL,
        xh2: -2.0 * l.s2 * l.z22,
        xh3: -2.0 * l.s2 * (l.z23 - l.z21),
        zmol,
        zmos,
        peo: 0.0,
        pinco: 0.0,
        plo: 0.0,
        pgho: 0.0,
        pho: 0.0,
    };
    Dscom { sinim, cosim, em, emsq, nm, solar, lunar, periodics }
}

// ----------------------------------------------------------------- dsinit

/// Sets `irez` and the resonance terms of the record (t and tc are zero).
fn dsinit<E: Elementary>(satrec: &mut Satrec, ds: &Dscom, eccsq: f64, xpidot: f64) {
    const Q22: f64 = 1.7891679e-6;
    const Q31: f64 = 2.1460748e-6;
    const Q33: f64 = 2.2123015e-7;
    const ROOT22: f64 = 1.7891679e-6;
    const ROOT44: f64 = 7.3636953e-9;
    const ROOT54: f64 = 2.1765803e-9;
    const ROOT32: f64 = 3.7393792e-7;
    const ROOT52: f64 = 1.1428639e-7;
    let tc = 0.0;

    let Satrec { argpo, gsto, mo, mdot, no, nodeo, nodedot, ecco, inclo, .. } = *satrec;
    let Dscom { sinim, cosim, em, emsq, nm, ref solar, ref lunar, .. } = *ds;
    let inclm = inclo;
    let (s, l) = (solar, lunar);
    let mut r = Resonance::default();

    satrec.irez = 0;
    if nm < 0.0052359877 && nm > 0.0034906585 {
        satrec.irez = 1;
    }
    if nm >= 8.26e-3 && nm <= 9.24e-3 && em >= 0.5 {
        satrec.irez = 2;
    }

    // solar terms
    let ses = s.s1 * ZNS * s.s5;
    let sis = s.s2 * ZNS * (s.z11 + s.z13);
    let sls = -ZNS * s.s3 * (s.z1 + s.z3 - 14.0 - 6.0 * emsq);
    let sghs = s.s4 * ZNS * (s.z31 + s.z33 - 6.0);
    let mut shs = -ZNS * s.s2 * (s.z21 + s.z23);
    let flat = inclm < 5.2359877e-2 || inclm > PI - 5.2359877e-2;
    if flat {
        shs = 0.0;
    }
    if sinim != 0.0 {
        shs /= sinim;
    }
    let sgs = sghs - cosim * shs;

    // lunar terms
    r.dedt = ses + l.s1 * ZNL * l.s5;
    r.didt = sis + l.s2 * ZNL * (l.z11 + l.z13);
    r.dmdt = sls - ZNL * l.s3 * (l.z1 + l.z3 - 14.0 - 6.0 * emsq);
    let sghl = l.s4 * ZNL * (l.z31 + l.z33 - 6.0);
    let mut shll = -ZNL * l.s2 * (l.z21 + l.z23);
    if flat {
        shll = 0.0;
    }
    r.domdt = sgs + sghl;
    r.dnodt = shs;
    if sinim != 0.0 {
        r.domdt -= cosim / sinim * shll;
        r.dnodt += shll / sinim;
    }

    let theta = fmod(gsto + tc * RPTIM, TWOPI);
    let aonv = if satrec.irez != 0 { E::pow_two_thirds(nm / XKE) } else { 0.0 };

    // geopotential resonance for 12 hour orbits
    if satrec.irez == 2 {
        let cosisq = cosim * cosim;
        let em = ecco;
        let emsq = eccsq;
        let eoc = em * emsq;
        let g201 = -0.306 - (em - 0.64) * 0.440;
        let (g211, g310, g322, g410, g422, g520);
        if em <= 0.65 {
            g211 = 3.616 - 13.2470 * em + 16.2900 * emsq;
            g310 = -19.302 + 117.3900 * em - 228.4190 * emsq + 156.5910 * eoc;
            g322 = -18.9068 + 109.7927 * em - 214.6334 * emsq + 146.5816 * eoc;
            g410 = -41.122 + 242.6940 * em - 471.0940 * emsq + 313.9530 * eoc;
            g422 = -146.407 + 841.8800 * em - 1629.014 * emsq + 1083.4350 * eoc;
            g520 = -532.114 + 3017.977 * em - 5740.032 * emsq + 3708.2760 * eoc;
        } else {
            g211 = -72.099 + 331.819 * em - 508.738 * emsq + 266.724 * eoc;
            g310 = -346.844 + 1582.851 * em - 2415.925 * emsq + 1246.113 * eoc;
            g322 = -342.585 + 1554.908 * em - 2366.899 * emsq + 1215.972 * eoc;
            g410 = -1052.797 + 4758.686 * em - 7193.992 * emsq + 3651.957 * eoc;
            g422 = -3581.690 + 16178.110 * em - 24462.770 * emsq + 12422.520 * eoc;
            g520 = if em > 0.715 {
                -5149.66 + 29936.92 * em - 54087.36 * emsq + 31324.56 * eoc
            } else {
                1464.74 - 4664.75 * em + 3763.64 * emsq
            };
        }
        let (g533, g521, g532);
        if em < 0.7 {
            g533 = -919.22770 + 4988.6100 * em - 9064.7700 * emsq + 5542.21 * eoc;
            g521 = -822.71072 + 4568.6173 * em - 8491.4146 * emsq + 5337.524 * eoc;
            g532 = -853.66600 + 4690.2500 * em - 8624.7700 * emsq + 5341.4 * eoc;
        } else {
            g533 = -37995.780 + 161616.52 * em - 229838.20 * emsq + 109377.94 * eoc;
            g521 = -51752.104 + 218913.95 * em - 309468.16 * emsq + 146349.42 * eoc;
            g532 = -40023.880 + 170470.89 * em - 242699.48 * emsq + 115605.82 * eoc;
        }

        let sini2 = sinim * sinim;
        let f220 = 0.75 * (1.0 + 2.0 * cosim + cosisq);
        let f221 = 1.5 * sini2;
        let f321 = 1.875 * sinim * (1.0 - 2.0 * cosim - 3.0 * cosisq);
        let f322 = -1.875 * sinim * (1.0 + 2.0 * cosim - 3.0 * cosisq);
        let f441 = 35.0 * sini2 * f220;
        let f442 = 39.3750 * sini2 * sini2;
        let f522 = 9.84375
            * sinim
            * (sini2 * (1.0 - 2.0 * cosim - 5.0 * cosisq) + 0.33333333 * (-2.0 + 4.0 * cosim + 6.0 * cosisq));
        let f523 = sinim
            * (4.92187512 * sini2 * (-2.0 - 4.0 * cosim + 10.0 * cosisq)
                + 6.56250012 * (1.0 + 2.0 * cosim - 3.0 * cosisq));
        let f542 = 29.53125 * sinim * (2.0 - 8.0 * cosim + cosisq * (-12.0 + 8.0 * cosim + 10.0 * cosisq));
        let f543 = 29.53125 * sinim * (-2.0 - 8.0 * cosim + cosisq * (12.0 + 8.0 * cosim - 10.0 * cosisq));
        let xno2 = nm * nm;
        let ainv2 = aonv * aonv;
        let temp1 = 3.0 * xno2 * ainv2;
        let temp = temp1 * ROOT22;
        r.d2201 = temp * f220 * g201;
        r.d2211 = temp * f221 * g211;
        let temp1 = temp1 * aonv;
        let temp = temp1 * ROOT32;
        r.d3210 = temp * f321 * g310;
        r.d3222 = temp * f322 * g322;
        let temp1 = temp1 * aonv;
        let temp = 2.0 * temp1 * ROOT44;
        r.d4410 = temp * f441 * g410;
        r.d4422 = temp * f442 * g422;
        let temp1 = temp1 * aonv;
        let temp = temp1 * ROOT52;
        r.d5220 = temp * f522 * g520;
        r.d5232 = temp * f523 * g532;
        let temp = 2.0 * temp1 * ROOT54;
        r.d5421 = temp * f542 * g521;
        r.d5433 = temp * f543 * g533;
        r.xlamo = fmod(mo + nodeo + nodeo - theta - theta, TWOPI);
        r.xfact = mdot + r.dmdt + 2.0 * (nodedot + r.dnodt - RPTIM) - no;
    }

    // synchronous resonance terms
    if satrec.irez == 1 {
        let g200 = 1.0 + emsq * (-2.5 + 0.8125 * emsq);
        let g310 = 1.0 + 2.0 * emsq;
        let g300 = 1.0 + emsq * (-6.0 + 6.60937 * emsq);
        let f220 = 0.75 * (1.0 + cosim) * (1.0 + cosim);
        let f311 = 0.9375 * sinim * sinim * (1.0 + 3.0 * cosim) - 0.75 * (1.0 + cosim);
        let f330 = 1.0 + cosim;
        let f330 = 1.875 * f330 * f330 * f330;
        let del1 = 3.0 * nm * nm * aonv * aonv;
        r.del2 = 2.0 * del1 * f220 * g200 * Q22;
        r.del3 = 3.0 * del1 * f330 * g300 * Q33 * aonv;
        r.del1 = del1 * f311 * g310 * Q31 * aonv;
        r.xlamo = fmod(mo + nodeo + argpo - theta, TWOPI);
        r.xfact = mdot + xpidot - RPTIM + r.dmdt + r.domdt + r.dnodt - no;
    }
    satrec.resonance = r;
}

// --------------------------------------------------------------- sgp4init

/// Set-up. Refusal 7 where 002 sets error 5, 8 where a number kept is not finite.
///
/// 002 goes on after error 5 and closes with a run to the epoch; the first
/// would be refused anyway, and the second changes nothing a request reads.
pub fn sgp4init<E: Elementary>(el: &Elements) -> Result<Satrec, u8> {
    let ss = 78.0 / RADIUSEARTHKM + 1.0;
    let qzms2t = fourth((120.0 - 78.0) / RADIUSEARTHKM);
    let mut satrec = Satrec {
        bstar: el.bstar,
        ecco: el.ecco,
        argpo: el.argpo,
        inclo: el.inclo,
        mo: el.mo,
        nodeo: el.nodeo,
        ..Satrec::default()
    };
    let Initl { no, ao, con41, con42, cosio, cosio2, eccsq, omeosq, posq, rp, rteosq, sinio, gsto } =
        initl::<E>(el.ecco, el.epoch, el.inclo, el.no);
    let Elements { bstar, ecco, argpo, mo, .. } = *el;
    satrec.no = no;
    satrec.con41 = con41;
    satrec.gsto = gsto;
    if rp < 1.0 {
        return Err(7);
    }

    satrec.isimp = rp < 220.0 / RADIUSEARTHKM + 1.0;
    let mut sfour = ss;
    let mut qzms24 = qzms2t;
    let perige = (rp - 1.0) * RADIUSEARTHKM;
    // for perigees below 156 km, s and qoms2t are altered
    if perige < 156.0 {
        sfour = perige - 78.0;
        if perige < 98.0 {
            sfour = 20.0;
        }
        qzms24 = fourth((120.0 - sfour) / RADIUSEARTHKM);
        sfour = sfour / RADIUSEARTHKM + 1.0;
    }
    let pinvsq = 1.0 / posq;

    let tsi = 1.0 / (ao - sfour);
    let eta = ao * ecco * tsi;
    let etasq = eta * eta;
    let eeta = ecco * eta;
    let psisq = (1.0 - etasq).abs();
    let coef = qzms24 * fourth(tsi);
    let coef1 = coef / E::pow_seven_halves(psisq);
    let cc2 = coef1
        * no
        * (ao * (1.0 + 1.5 * etasq + eeta * (4.0 + etasq))
            + 0.375 * J2 * tsi / psisq * con41 * (8.0 + 3.0 * etasq * (8.0 + etasq)));
    let cc1 = bstar * cc2;
    let mut cc3 = 0.0;
    if ecco > 1.0e-4 {
        cc3 = -2.0 * coef * tsi * J3OJ2 * no * sinio / ecco;
    }
    let x1mth2 = 1.0 - cosio2;
    satrec.cc4 = 2.0
        * no
        * coef1
        * ao
        * omeosq
        * (eta * (2.0 + 0.5 * etasq) + ecco * (0.5 + 2.0 * etasq)
            - J2 * tsi / (ao * psisq)
                * (-3.0 * con41 * (1.0 - 2.0 * eeta + etasq * (1.5 - 0.5 * eeta))
                    + 0.75 * x1mth2 * (2.0 * etasq - eeta * (1.0 + etasq)) * E::cos(2.0 * argpo)));
    satrec.cc5 = 2.0 * coef1 * ao * omeosq * (1.0 + 2.75 * (etasq + eeta) + eeta * etasq);
    let cosio4 = cosio2 * cosio2;
    let temp1 = 1.5 * J2 * pinvsq * no;
    let temp2 = 0.5 * temp1 * J2 * pinvsq;
    let temp3 = -0.46875 * J4 * pinvsq * pinvsq * no;
    satrec.mdot =
        no + 0.5 * temp1 * rteosq * con41 + 0.0625 * temp2 * rteosq * (13.0 - 78.0 * cosio2 + 137.0 * cosio4);
    satrec.argpdot = -0.5 * temp1 * con42
        + 0.0625 * temp2 * (7.0 - 114.0 * cosio2 + 395.0 * cosio4)
        + temp3 * (3.0 - 36.0 * cosio2 + 49.0 * cosio4);
    let xhdot1 = -temp1 * cosio;
    satrec.nodedot =
        xhdot1 + (0.5 * temp2 * (4.0 - 19.0 * cosio2) + 2.0 * temp3 * (3.0 - 7.0 * cosio2)) * cosio;
    let xpidot = satrec.argpdot + satrec.nodedot;
    satrec.omgcof = bstar * cc3 * E::cos(argpo);
    if ecco > 1.0e-4 {
        satrec.xmcof = -X2O3 * coef * bstar / eeta;
    }
    satrec.nodecf = 3.5 * omeosq * xhdot1 * cc1;
    satrec.t2cof = 1.5 * cc1;
    satrec.xlcof = xlcof(sinio, cosio);
    satrec.aycof = -0.5 * J3OJ2 * sinio;
    let (sinmo, cosmo) = E::sin_cos(mo);
    satrec.delmo = cube(1.0 + eta * cosmo);
    satrec.sinmao = sinmo;
    satrec.x7thm1 = 7.0 * cosio2 - 1.0;
    satrec.x1mth2 = x1mth2;
    satrec.eta = eta;
    satrec.cc1 = cc1;

    if 2.0 * PI / no >= 225.0 {
        satrec.deep = true;
        satrec.isimp = true;
        let ds = dscom::<E>(el, no);
        satrec.periodics = ds.periodics;
        // 002 calls dpper here with init 'y', which changes nothing.
        dsinit::<E>(&mut satrec, &ds, eccsq, xpidot);
    }

    if !satrec.isimp {
        let cc1sq = cc1 * cc1;
        let d2 = 4.0 * ao * tsi * cc1sq;
        let temp = d2 * tsi * cc1 / 3.0;
        let d3 = (17.0 * ao + sfour) * temp;
        let d4 = 0.5 * temp * ao * tsi * (221.0 * ao + 31.0 * sfour) * cc1;
        satrec.t3cof = d2 + 2.0 * cc1sq;
        satrec.t4cof = 0.25 * (3.0 * d3 + cc1 * (12.0 * d2 + 10.0 * cc1sq));
        satrec.t5cof = 0.2 * (3.0 * d4 + 12.0 * cc1 * d3 + 6.0 * d2 * d2 + 15.0 * cc1sq * (2.0 * d2 + cc1sq));
        satrec.d2 = d2;
        satrec.d3 = d3;
        satrec.d4 = d4;
    }

    if satrec.numbers().iter().all(|x| x.is_finite()) {
        Ok(satrec)
    } else {
        Err(8)
    }
}

fn xlcof(sini: f64, cosi: f64) -> f64 {
    let numerator = -0.25 * J3OJ2 * sini * (3.0 + 5.0 * cosi);
    if (cosi + 1.0).abs() > 1.5e-12 {
        numerator / (1.0 + cosi)
    } else {
        numerator / TEMP4
    }
}

// ----------------------------------------------------------------- dspace

/// `dspace`'s "dot terms" at a position: xndt, xldot, xnddt.
fn dot_terms<E: Elementary>(satrec: &Satrec, at: &Position) -> (f64, f64, f64) {
    const FASX2: f64 = 0.13130908;
    const FASX4: f64 = 2.8843198;
    const FASX6: f64 = 0.37448087;
    const G22: f64 = 5.7686396;
    const G32: f64 = 0.95240898;
    const G44: f64 = 1.8014998;
    const G52: f64 = 1.0508330;
    const G54: f64 = 4.4108898;
    let r = &satrec.resonance;
    let Position { atime, xli, xni } = *at;
    let xldot = xni + r.xfact;
    if satrec.irez != 2 {
        // near - synchronous resonance terms
        let (sin1, cos1) = E::sin_cos(xli - FASX2);
        let (sin2, cos2) = E::sin_cos(2.0 * (xli - FASX4));
        let (sin3, cos3) = E::sin_cos(3.0 * (xli - FASX6));
        let xndt = r.del1 * sin1 + r.del2 * sin2 + r.del3 * sin3;
        let xnddt = r.del1 * cos1 + 2.0 * r.del2 * cos2 + 3.0 * r.del3 * cos3;
        (xndt, xldot, xnddt * xldot)
    } else {
        // near - half-day resonance terms
        let xomi = satrec.argpo + satrec.argpdot * atime;
        let x2omi = xomi + xomi;
        let x2li = xli + xli;
        let (s2201, c2201) = E::sin_cos(x2omi + xli - G22);
        let (s2211, c2211) = E::sin_cos(xli - G22);
        let (s3210, c3210) = E::sin_cos(xomi + xli - G32);
        let (s3222, c3222) = E::sin_cos(-xomi + xli - G32);
        let (s4410, c4410) = E::sin_cos(x2omi + x2li - G44);
        let (s4422, c4422) = E::sin_cos(x2li - G44);
        let (s5220, c5220) = E::sin_cos(xomi + xli - G52);
        let (s5232, c5232) = E::sin_cos(-xomi + xli - G52);
        let (s5421, c5421) = E::sin_cos(xomi + x2li - G54);
        let (s5433, c5433) = E::sin_cos(-xomi + x2li - G54);
        let xndt = r.d2201 * s2201
            + r.d2211 * s2211
            + r.d3210 * s3210
            + r.d3222 * s3222
            + r.d4410 * s4410
            + r.d4422 * s4422
            + r.d5220 * s5220
            + r.d5232 * s5232
            + r.d5421 * s5421
            + r.d5433 * s5433;
        let xnddt = r.d2201 * c2201
            + r.d2211 * c2211
            + r.d3210 * c3210
            + r.d3222 * c3222
            + r.d5220 * c5220
            + r.d5232 * c5232
            + 2.0 * (r.d4410 * c4410 + r.d4422 * c4422 + r.d5421 * c5421 + r.d5433 * c5433);
        (xndt, xldot, xnddt * xldot)
    }
}

/// One stride of the integrator, away from the epoch.
pub fn stride<E: Elementary>(satrec: &Satrec, at: &Position, forward: bool) -> Position {
    let delt = if forward { STEPP } else { STEPN };
    let (xndt, xldot, xnddt) = dot_terms::<E>(satrec, at);
    Position {
        atime: at.atime + delt,
        xli: at.xli + xldot * delt + xndt * STEP2,
        xni: at.xni + xndt * delt + xnddt * STEP2,
    }
}

/// 002's own loop: from the epoch, while a whole stride is left, in minutes.
pub fn epoch_restart<E: Elementary>(satrec: &Satrec, t: f64) -> Position {
    let mut at = satrec.at_epoch();
    if satrec.irez != 0 {
        while (t - at.atime).abs() >= STEPP {
            at = stride::<E>(satrec, &at, t > 0.0);
        }
    }
    at
}

/// The mean elements that `dspace` and `dpper` change.
#[derive(Clone, Copy, Debug)]
struct Mean {
    nm: f64,
    em: f64,
    inclm: f64,
    argpm: f64,
    nodem: f64,
    mm: f64,
}

/// Secular deep-space effects, and the resonance's from the position reached.
fn dspace<E: Elementary>(satrec: &Satrec, t: f64, at: &Position, m: &mut Mean) {
    let r = &satrec.resonance;
    let tc = t;
    let no = satrec.no;
    let theta = fmod(satrec.gsto + tc * RPTIM, TWOPI);
    m.em += r.dedt * t;
    m.inclm += r.didt * t;
    m.argpm += r.domdt * t;
    m.nodem += r.dnodt * t;
    m.mm += r.dmdt * t;
    if satrec.irez != 0 {
        let ft = t - at.atime;
        let (xndt, xldot, xnddt) = dot_terms::<E>(satrec, at);
        let nm = at.xni + xndt * ft + xnddt * ft * ft * 0.5;
        let xl = at.xli + xldot * ft + xndt * ft * ft * 0.5;
        if satrec.irez != 1 {
            m.mm = xl - 2.0 * m.nodem + 2.0 * theta;
        } else {
            m.mm = xl - m.nodem - m.argpm + theta;
        }
        let dndt = nm - no;
        m.nm = no + dndt;
    }
}

// ------------------------------------------------------------------ dpper

/// The elements that `dpper` changes.
#[derive(Clone, Copy, Debug)]
struct Perturbed {
    ep: f64,
    inclp: f64,
    nodep: f64,
    argpp: f64,
    mp: f64,
}

/// The periodics of one body: sums over its anomaly zm (e, inc, l, gh, h).
struct Terms {
    e2: f64,
    e3: f64,
    i2: f64,
    i3: f64,
    l2: f64,
    l3: f64,
    l4: f64,
    gh2: f64,
    gh3: f64,
    gh4: f64,
    h2: f64,
    h3: f64,
}

fn body_periodics<E: Elementary>(zm: f64, ze: f64, c: &Terms) -> [f64; 5] {
    let zf = zm + 2.0 * ze * E::sin(zm);
    let (sinzf, coszf) = E::sin_cos(zf);
    let f2 = 0.5 * sinzf * sinzf - 0.25;
    let f3 = -0.5 * sinzf * coszf;
    [
        c.e2 * f2 + c.e3 * f3,
        c.i2 * f2 + c.i3 * f3,
        c.l2 * f2 + c.l3 * f3 + c.l4 * sinzf,
        c.gh2 * f2 + c.gh3 * f3 + c.gh4 * sinzf,
        c.h2 * f2 + c.h3 * f3,
    ]
}

fn dpper<E: Elementary>(p: &Periodics, t: f64, el: &mut Perturbed) {
    let solar = Terms {
        e2: p.se2,
        e3: p.se3,
        i2: p.si2,
        i3: p.si3,
        l2: p.sl2,
        l3: p.sl3,
        l4: p.sl4,
        gh2: p.sgh2,
        gh3: p.sgh3,
        gh4: p.sgh4,
        h2: p.sh2,
        h3: p.sh3,
    };
    let lunar = Terms {
        e2: p.ee2,
        e3: p.e3,
        i2: p.xi2,
        i3: p.xi3,
        l2: p.xl2,
        l3: p.xl3,
        l4: p.xl4,
        gh2: p.xgh2,
        gh3: p.xgh3,
        gh4: p.xgh4,
        h2: p.xh2,
        h3: p.xh3,
    };
    let [ses, sis, sls, sghs, shs] = body_periodics::<E>(p.zmos + ZNS * t, ZES, &solar);
    let [sel, sil, sll, sghl, shll] = body_periodics::<E>(p.zmol + ZNL * t, ZEL, &lunar);
    let pe = ses + sel - p.peo;
    let pinc = sis + sil - p.pinco;
    let pl = sls + sll - p.plo;
    let mut pgh = sghs + sghl - p.pgho;
    let mut ph = shs + shll - p.pho;
    el.inclp += pinc;
    el.ep += pe;
    let (sinip, cosip) = E::sin_cos(el.inclp);

    if el.inclp >= 0.2 {
        // apply periodics directly
        ph /= sinip;
        pgh -= cosip * ph;
        el.argpp += pgh;
        el.nodep += ph;
        el.mp += pl;
    } else {
        // apply periodics with lyddane modification
        let (sinop, cosop) = E::sin_cos(el.nodep);
        let alfdp = sinip * sinop;
        let betdp = sinip * cosop;
        let dalf = ph * cosop + pinc * cosip * sinop;
        let dbet = -ph * sinop + pinc * cosip * cosop;
        let alfdp = alfdp + dalf;
        let betdp = betdp + dbet;
        el.nodep = fmod(el.nodep, TWOPI);
        let xls = el.mp + el.argpp + cosip * el.nodep;
        let dls = pl + pgh - pinc * el.nodep * sinip;
        let xls = xls + dls;
        let xnoh = el.nodep;
        el.nodep = E::atan2(alfdp, betdp);
        if (xnoh - el.nodep).abs() > PI {
            if el.nodep < xnoh {
                el.nodep += TWOPI;
            } else {
                el.nodep -= TWOPI;
            }
        }
        el.mp += pl;
        el.argpp = xls - el.mp - cosip * el.nodep;
    }
}

// ------------------------------------------------------------------- sgp4

/// Position in km, velocity in km/s, and how often Kepler's loop ran.
#[derive(Clone, Copy, Debug, PartialEq)]
pub struct State {
    pub r: [f64; 3],
    pub v: [f64; 3],
    pub rounds: u32,
}

/// The state t minutes from the epoch, the integrator having reached `at`;
/// or the first of the refusals 10-15 that is met.
pub fn sgp4<E: Elementary>(satrec: &Satrec, t: f64, at: &Position) -> Result<State, u8> {
    // update for secular gravity and atmospheric drag
    let xmdf = satrec.mo + satrec.mdot * t;
    let argpdf = satrec.argpo + satrec.argpdot * t;
    let nodedf = satrec.nodeo + satrec.nodedot * t;
    let t2 = t * t;
    let mut mean = Mean {
        nm: satrec.no,
        em: satrec.ecco,
        inclm: satrec.inclo,
        argpm: argpdf,
        nodem: nodedf + satrec.nodecf * t2,
        mm: xmdf,
    };
    let mut tempa = 1.0 - satrec.cc1 * t;
    let mut tempe = satrec.bstar * satrec.cc4 * t;
    let mut templ = satrec.t2cof * t2;
    if !satrec.isimp {
        let delomg = satrec.omgcof * t;
        let delm = satrec.xmcof * (cube(1.0 + satrec.eta * E::cos(xmdf)) - satrec.delmo);
        let temp = delomg + delm;
        mean.mm = xmdf + temp;
        mean.argpm = argpdf - temp;
        let t3 = t2 * t;
        let t4 = t3 * t;
        tempa = tempa - satrec.d2 * t2 - satrec.d3 * t3 - satrec.d4 * t4;
        tempe += satrec.bstar * satrec.cc5 * (E::sin(mean.mm) - satrec.sinmao);
        templ = templ + satrec.t3cof * t3 + t4 * (satrec.t4cof + t * satrec.t5cof);
    }
    if satrec.deep {
        dspace::<E>(satrec, t, at, &mut mean);
    }
    let Mean { nm, mut em, inclm, argpm, nodem, mm } = mean;
    if nm <= 0.0 {
        return Err(10);
    }
    let am = E::pow_two_thirds(XKE / nm) * tempa * tempa;
    let nm = XKE / E::pow_three_halves(am);
    em -= tempe;
    if em >= 1.0 || em < -0.001 || am < 0.95 {
        return Err(11);
    }
    if em < 0.0 {
        em = 1.0e-6;
    }
    let mm = mm + satrec.no * templ;
    let xlm = mm + argpm + nodem;
    let nodem = fmod(nodem, TWOPI);
    let argpm = fmod(argpm, TWOPI);
    let xlm = fmod(xlm, TWOPI);
    let mm = fmod(xlm - argpm - nodem, TWOPI);

    // add lunar-solar periodics
    let mut el = Perturbed { ep: em, inclp: inclm, nodep: nodem, argpp: argpm, mp: mm };
    if satrec.deep {
        dpper::<E>(&satrec.periodics, t, &mut el);
        if el.inclp < 0.0 {
            el.inclp = -el.inclp;
            el.nodep += PI;
            el.argpp -= PI;
        }
        if el.ep < 0.0 || el.ep > 1.0 {
            return Err(12);
        }
    }
    let Perturbed { ep, inclp: xincp, nodep, argpp, mp } = el;
    let (sinip, cosip) = E::sin_cos(xincp);

    // long period periodics
    let Satrec { mut aycof, xlcof: mut xlcof_, mut con41, mut x1mth2, mut x7thm1, .. } = *satrec;
    if satrec.deep {
        aycof = -0.5 * J3OJ2 * sinip;
        xlcof_ = xlcof(sinip, cosip);
    }
    let (sinargpp, cosargpp) = E::sin_cos(argpp);
    let axnl = ep * cosargpp;
    let temp = 1.0 / (am * (1.0 - ep * ep));
    let aynl = ep * sinargpp + temp * aycof;
    let xl = mp + argpp + nodep + temp * xlcof_ * axnl;

    // solve kepler's equation
    let u = fmod(xl - nodep, TWOPI);
    let mut eo1 = u;
    let mut tem5: f64 = 9999.9;
    let mut ktr = 1;
    let (mut sineo1, mut coseo1) = (0.0, 0.0);
    while tem5.abs() >= 1.0e-12 && ktr <= 10 {
        (sineo1, coseo1) = E::sin_cos(eo1);
        tem5 = 1.0 - coseo1 * axnl - sineo1 * aynl;
        tem5 = (u - aynl * coseo1 + axnl * sineo1 - eo1) / tem5;
        if tem5.abs() >= 0.95 {
            tem5 = if tem5 > 0.0 { 0.95 } else { -0.95 };
        }
        eo1 += tem5;
        ktr += 1;
    }
    let rounds = ktr - 1;

    // short period preliminary quantities
    let ecose = axnl * coseo1 + aynl * sineo1;
    let esine = axnl * sineo1 - aynl * coseo1;
    let el2 = axnl * axnl + aynl * aynl;
    let pl = am * (1.0 - el2);
    if pl < 0.0 {
        return Err(13);
    }
    let rl = am * (1.0 - ecose);
    let rdotl = E::sqrt(am) * esine / rl;
    let rvdotl = E::sqrt(pl) / rl;
    let betal = E::sqrt(1.0 - el2);
    let temp = esine / (1.0 + betal);
    let sinu = am / rl * (sineo1 - aynl - axnl * temp);
    let cosu = am / rl * (coseo1 - axnl + aynl * temp);
    let su = E::atan2(sinu, cosu);
    let sin2u = (cosu + cosu) * sinu;
    let cos2u = 1.0 - 2.0 * sinu * sinu;
    let temp = 1.0 / pl;
    let temp1 = 0.5 * J2 * temp;
    let temp2 = temp1 * temp;

    // update for short period periodics
    if satrec.deep {
        let cosisq = cosip * cosip;
        con41 = 3.0 * cosisq - 1.0;
        x1mth2 = 1.0 - cosisq;
        x7thm1 = 7.0 * cosisq - 1.0;
    }
    let mrt = rl * (1.0 - 1.5 * temp2 * betal * con41) + 0.5 * temp1 * x1mth2 * cos2u;
    let su = su - 0.25 * temp2 * x7thm1 * sin2u;
    let xnode = nodep + 1.5 * temp2 * cosip * sin2u;
    let xinc = xincp + 1.5 * temp2 * cosip * sinip * cos2u;
    let mvt = rdotl - nm * temp1 * x1mth2 * sin2u / XKE;
    let rvdot = rvdotl + nm * temp1 * (x1mth2 * cos2u + 1.5 * con41) / XKE;

    // orientation vectors
    let (sinsu, cossu) = E::sin_cos(su);
    let (snod, cnod) = E::sin_cos(xnode);
    let (sini, cosi) = E::sin_cos(xinc);
    let xmx = -snod * cosi;
    let xmy = cnod * cosi;
    let ux = xmx * sinsu + cnod * cossu;
    let uy = xmy * sinsu + snod * cossu;
    let uz = sini * sinsu;
    let vx = xmx * cossu - cnod * sinsu;
    let vy = xmy * cossu - snod * sinsu;
    let vz = sini * cossu;

    // position and velocity (in km and km/sec)
    let r = [(mrt * ux) * RADIUSEARTHKM, (mrt * uy) * RADIUSEARTHKM, (mrt * uz) * RADIUSEARTHKM];
    let v = [
        (mvt * ux + rvdot * vx) * VKMPERSEC,
        (mvt * uy + rvdot * vy) * VKMPERSEC,
        (mvt * uz + rvdot * vz) * VKMPERSEC,
    ];
    if mrt < 1.0 {
        return Err(14);
    }
    if !r.iter().chain(&v).all(|x| x.is_finite()) {
        return Err(15);
    }
    Ok(State { r, v, rounds })
}

#[cfg(test)]
mod tests {
    use super::*;
    use crate::elementary::{Document, Libm};

    /// The constants given as literals are what 002 computes at every call.
    #[test]
    fn literals_are_the_formulas() {
        fn formulas<E: Elementary>() -> (f64, f64) {
            let cubed = RADIUSEARTHKM * RADIUSEARTHKM * RADIUSEARTHKM;
            (60.0 / E::sqrt(cubed / MU), 1.0 + E::cos(PI - 1.0e-9))
        }
        assert_eq!(formulas::<Document>(), (XKE, TEMP4));
        assert_eq!(formulas::<Libm>(), (XKE, TEMP4));
    }

    #[test]
    fn exponential_fields_round_once() {
        let value = |mantissa, exponent| exponential(Exponential { mantissa, exponent });
        assert_eq!(value(28098, -4), 0.28098e-4);
        assert_eq!(value(-11606, 9), -11606.0e4);
        assert_eq!(value(99999, 5), 99999.0);
        assert_eq!(value(12345, -9), 0.12345e-9);
        assert_eq!(value(0, 0), 0.0);
    }
}
