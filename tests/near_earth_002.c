/*
 * 002's own text for a near-Earth satellite in C, with the system's libm: twoline2rv's fields, initl, the
 * near-Earth part of sgp4init, sgp4 and gstime, in 002's order (its lines 1225-3657). What the size of the
 * profile is held against (tests/profile_sizes); it judges no line, and its bits are not the library's.
 */
#include <math.h>
#include <stddef.h>
#include <stdint.h>

#define PI 3.14159265358979323846
#define TWOPI (2.0 * PI)
#define X2O3 (2.0 / 3.0)
#define MU 398600.8
#define RADIUS 6378.135
#define J2 0.001082616
#define J3 -0.00000253881
#define J4 -0.00000165597
#define J3OJ2 (J3 / J2)

typedef struct {
    double bstar, ecco, argpo, inclo, mo, no, nodeo, epochdays;
    int epochyr, error, isimp;
    double con41, cc1, cc4, cc5, d2, d3, d4, delmo, eta, argpdot, omgcof, sinmao, t2cof, t3cof, t4cof, t5cof,
        x1mth2, x7thm1, mdot, nodedot, xlcof, xmcof, nodecf, aycof, gsto;
} satrec;

static double xke(void)
{
    return 60.0 / sqrt(RADIUS * RADIUS * RADIUS / MU);
}

/* A field of a line: digits with a point or without, blanks for zeros. */
static double field(const uint8_t *line, int first, int last, double scale)
{
    double value = 0.0;
    int i, sign = 1;
    for (i = first - 1; i < last; i++) {
        if (line[i] == '-')
            sign = -1;
        else if (line[i] >= '0' && line[i] <= '9')
            value = 10.0 * value + (line[i] - '0');
    }
    return sign * value / scale;
}

static double gstime(double jdut1)
{
    double tut1 = (jdut1 - 2451545.0) / 36525.0;
    double temp = -6.2e-6 * tut1 * tut1 * tut1 + 0.093104 * tut1 * tut1 + (876600.0 * 3600 + 8640184.812866) * tut1
        + 67310.54841;
    temp = fmod(temp * (PI / 180.0) / 240.0, TWOPI);
    if (temp < 0.0)
        temp += TWOPI;
    return temp;
}

int reference_request(satrec *s, double t, double *state)
{
    double am, axnl, aynl, betal, cnod, cos2u, coseo1 = 0.0, cosi, cosip, cossu, cosu, delm, delomg, em, ecose, el2, eo1,
        esine, argpm, argpdf, pl, mrt, mvt, rdotl, rl, rvdot, rvdotl, sin2u, sineo1 = 0.0, sini, sinip, sinsu, sinu, snod, su,
        t2, t3, t4, tem5, temp, temp1, temp2, tempa, tempe, templ, u, ux, uy, uz, vx, vy, vz, mm, nm, nodem, xinc, xl, xlm,
        xmdf, xmx, xmy, nodedf, xnode, vkmpersec;
    int ktr;
    vkmpersec = RADIUS * xke() / 60.0;
    xmdf = s->mo + s->mdot * t;
    argpdf = s->argpo + s->argpdot * t;
    nodedf = s->nodeo + s->nodedot * t;
    argpm = argpdf;
    mm = xmdf;
    t2 = t * t;
    nodem = nodedf + s->nodecf * t2;
    tempa = 1.0 - s->cc1 * t;
    tempe = s->bstar * s->cc4 * t;
    templ = s->t2cof * t2;
    if (s->isimp != 1) {
        delomg = s->omgcof * t;
        delm = s->xmcof * (pow(1.0 + s->eta * cos(xmdf), 3) - s->delmo);
        temp = delomg + delm;
        mm = xmdf + temp;
        argpm = argpdf - temp;
        t3 = t2 * t;
        t4 = t3 * t;
        tempa = tempa - s->d2 * t2 - s->d3 * t3 - s->d4 * t4;
        tempe = tempe + s->bstar * s->cc5 * (sin(mm) - s->sinmao);
        templ = templ + s->t3cof * t3 + t4 * (s->t4cof + t * s->t5cof);
    }
    nm = s->no;
    if (nm <= 0.0)
        return 2;
    am = pow(xke() / nm, X2O3) * tempa * tempa;
    nm = xke() / pow(am, 1.5);
    em = s->ecco - tempe;
    if (em >= 1.0 || em < -0.001 || am < 0.95)
        return 1;
    if (em < 0.0)
        em = 1.0e-6;
    mm = mm + s->no * templ;
    xlm = mm + argpm + nodem;
    nodem = fmod(nodem, TWOPI);
    argpm = fmod(argpm, TWOPI);
    xlm = fmod(xlm, TWOPI);
    mm = fmod(xlm - argpm - nodem, TWOPI);
    sinip = sin(s->inclo);
    cosip = cos(s->inclo);
    axnl = em * cos(argpm);
    temp = 1.0 / (am * (1.0 - em * em));
    aynl = em * sin(argpm) + temp * s->aycof;
    xl = mm + argpm + nodem + temp * s->xlcof * axnl;
    u = fmod(xl - nodem, TWOPI);
    eo1 = u;
    tem5 = 9999.9;
    ktr = 1;
    while (fabs(tem5) >= 1.0e-12 && ktr <= 10) {
        sineo1 = sin(eo1);
        coseo1 = cos(eo1);
        tem5 = 1.0 - coseo1 * axnl - sineo1 * aynl;
        tem5 = (u - aynl * coseo1 + axnl * sineo1 - eo1) / tem5;
        if (fabs(tem5) >= 0.95)
            tem5 = tem5 > 0.0 ? 0.95 : -0.95;
        eo1 = eo1 + tem5;
        ktr = ktr + 1;
    }
    ecose = axnl * coseo1 + aynl * sineo1;
    esine = axnl * sineo1 - aynl * coseo1;
    el2 = axnl * axnl + aynl * aynl;
    pl = am * (1.0 - el2);
    if (pl < 0.0)
        return 4;
    rl = am * (1.0 - ecose);
    rdotl = sqrt(am) * esine / rl;
    rvdotl = sqrt(pl) / rl;
    betal = sqrt(1.0 - el2);
    temp = esine / (1.0 + betal);
    sinu = am / rl * (sineo1 - aynl - axnl * temp);
    cosu = am / rl * (coseo1 - axnl + aynl * temp);
    su = atan2(sinu, cosu);
    sin2u = (cosu + cosu) * sinu;
    cos2u = 1.0 - 2.0 * sinu * sinu;
    temp = 1.0 / pl;
    temp1 = 0.5 * J2 * temp;
    temp2 = temp1 * temp;
    mrt = rl * (1.0 - 1.5 * temp2 * betal * s->con41) + 0.5 * temp1 * s->x1mth2 * cos2u;
    su = su - 0.25 * temp2 * s->x7thm1 * sin2u;
    xnode = nodem + 1.5 * temp2 * cosip * sin2u;
    xinc = s->inclo + 1.5 * temp2 * cosip * sinip * cos2u;
    mvt = rdotl - nm * temp1 * s->x1mth2 * sin2u / xke();
    rvdot = rvdotl + nm * temp1 * (s->x1mth2 * cos2u + 1.5 * s->con41) / xke();
    sinsu = sin(su);
    cossu = cos(su);
    snod = sin(xnode);
    cnod = cos(xnode);
    sini = sin(xinc);
    cosi = cos(xinc);
    xmx = -snod * cosi;
    xmy = cnod * cosi;
    ux = xmx * sinsu + cnod * cossu;
    uy = xmy * sinsu + snod * cossu;
    uz = sini * sinsu;
    vx = xmx * cossu - cnod * sinsu;
    vy = xmy * cossu - snod * sinsu;
    vz = sini * cossu;
    state[0] = mrt * ux * RADIUS;
    state[1] = mrt * uy * RADIUS;
    state[2] = mrt * uz * RADIUS;
    state[3] = (mvt * ux + rvdot * vx) * vkmpersec;
    state[4] = (mvt * uy + rvdot * vy) * vkmpersec;
    state[5] = (mvt * uz + rvdot * vz) * vkmpersec;
    return mrt < 1.0 ? 6 : 0;
}

static int sgp4init(satrec *s, double epoch)
{
    double ak, adel, ao, cc1sq, cc2, cc3, coef, coef1, con42, cosio, cosio2, cosio4, dl, del, eccsq, eeta, etasq, omeosq,
        perige, pinvsq, po, posq, psisq, qzms24, rp, rteosq, sfour, sinio, temp, temp1, temp2, temp3, temp4, tsi, xhdot1;
    temp4 = 1.0 + cos(PI - 1.0e-9);
    eccsq = s->ecco * s->ecco;
    omeosq = 1.0 - eccsq;
    rteosq = sqrt(omeosq);
    cosio = cos(s->inclo);
    cosio2 = cosio * cosio;
    ak = pow(xke() / s->no, X2O3);
    dl = 0.75 * J2 * (3.0 * cosio2 - 1.0) / (rteosq * omeosq);
    del = dl / (ak * ak);
    adel = ak * (1.0 - del * del - del * (1.0 / 3.0 + 134.0 * del * del / 81.0));
    del = dl / (adel * adel);
    s->no = s->no / (1.0 + del);
    ao = pow(xke() / s->no, X2O3);
    sinio = sin(s->inclo);
    po = ao * omeosq;
    con42 = 1.0 - 5.0 * cosio2;
    s->con41 = -con42 - cosio2 - cosio2;
    posq = po * po;
    rp = ao * (1.0 - s->ecco);
    s->gsto = gstime(epoch + 2433281.5);
    if (rp < 1.0)
        return 5;
    s->isimp = rp < 220.0 / RADIUS + 1.0;
    sfour = 78.0 / RADIUS + 1.0;
    qzms24 = pow((120.0 - 78.0) / RADIUS, 4);
    perige = (rp - 1.0) * RADIUS;
    if (perige < 156.0) {
        sfour = perige - 78.0;
        if (perige < 98.0)
            sfour = 20.0;
        qzms24 = pow((120.0 - sfour) / RADIUS, 4.0);
        sfour = sfour / RADIUS + 1.0;
    }
    pinvsq = 1.0 / posq;
    tsi = 1.0 / (ao - sfour);
    s->eta = ao * s->ecco * tsi;
    etasq = s->eta * s->eta;
    eeta = s->ecco * s->eta;
    psisq = fabs(1.0 - etasq);
    coef = qzms24 * pow(tsi, 4.0);
    coef1 = coef / pow(psisq, 3.5);
    cc2 = coef1 * s->no * (ao * (1.0 + 1.5 * etasq + eeta * (4.0 + etasq))
        + 0.375 * J2 * tsi / psisq * s->con41 * (8.0 + 3.0 * etasq * (8.0 + etasq)));
    s->cc1 = s->bstar * cc2;
    cc3 = 0.0;
    if (s->ecco > 1.0e-4)
        cc3 = -2.0 * coef * tsi * J3OJ2 * s->no * sinio / s->ecco;
    s->x1mth2 = 1.0 - cosio2;
    s->cc4 = 2.0 * s->no * coef1 * ao * omeosq * (s->eta * (2.0 + 0.5 * etasq) + s->ecco * (0.5 + 2.0 * etasq)
        - J2 * tsi / (ao * psisq) * (-3.0 * s->con41 * (1.0 - 2.0 * eeta + etasq * (1.5 - 0.5 * eeta))
        + 0.75 * s->x1mth2 * (2.0 * etasq - eeta * (1.0 + etasq)) * cos(2.0 * s->argpo)));
    s->cc5 = 2.0 * coef1 * ao * omeosq * (1.0 + 2.75 * (etasq + eeta) + eeta * etasq);
    cosio4 = cosio2 * cosio2;
    temp1 = 1.5 * J2 * pinvsq * s->no;
    temp2 = 0.5 * temp1 * J2 * pinvsq;
    temp3 = -0.46875 * J4 * pinvsq * pinvsq * s->no;
    s->mdot = s->no + 0.5 * temp1 * rteosq * s->con41 + 0.0625 * temp2 * rteosq * (13.0 - 78.0 * cosio2 + 137.0 * cosio4);
    s->argpdot = -0.5 * temp1 * con42 + 0.0625 * temp2 * (7.0 - 114.0 * cosio2 + 395.0 * cosio4)
        + temp3 * (3.0 - 36.0 * cosio2 + 49.0 * cosio4);
    xhdot1 = -temp1 * cosio;
    s->nodedot = xhdot1 + (0.5 * temp2 * (4.0 - 19.0 * cosio2) + 2.0 * temp3 * (3.0 - 7.0 * cosio2)) * cosio;
    s->omgcof = s->bstar * cc3 * cos(s->argpo);
    s->xmcof = 0.0;
    if (s->ecco > 1.0e-4)
        s->xmcof = -X2O3 * coef * s->bstar / eeta;
    s->nodecf = 3.5 * omeosq * xhdot1 * s->cc1;
    s->t2cof = 1.5 * s->cc1;
    s->xlcof = -0.25 * J3OJ2 * sinio * (3.0 + 5.0 * cosio) / (fabs(cosio + 1.0) > 1.5e-12 ? 1.0 + cosio : temp4);
    s->aycof = -0.5 * J3OJ2 * sinio;
    s->delmo = pow(1.0 + s->eta * cos(s->mo), 3);
    s->sinmao = sin(s->mo);
    s->x7thm1 = 7.0 * cosio2 - 1.0;
    if (TWOPI / s->no >= 225.0)
        return 32;
    if (s->isimp != 1) {
        cc1sq = s->cc1 * s->cc1;
        s->d2 = 4.0 * ao * tsi * cc1sq;
        temp = s->d2 * tsi * s->cc1 / 3.0;
        s->d3 = (17.0 * ao + sfour) * temp;
        s->d4 = 0.5 * temp * ao * tsi * (221.0 * ao + 31.0 * sfour) * s->cc1;
        s->t3cof = s->d2 + 2.0 * cc1sq;
        s->t4cof = 0.25 * (3.0 * s->d3 + s->cc1 * (12.0 * s->d2 + 10.0 * cc1sq));
        s->t5cof = 0.2 * (3.0 * s->d4 + 12.0 * s->cc1 * s->d3 + 6.0 * s->d2 * s->d2 + 15.0 * cc1sq * (2.0 * s->d2 + cc1sq));
    }
    return 0;
}

int reference_open(satrec *s, const uint8_t *line1, const uint8_t *line2)
{
    const double rad = 180.0 / PI, xpdotp = 1440.0 / (2.0 * PI);
    double epoch;
    int year = (int)field(line1, 19, 20, 1.0);
    s->epochyr = year < 57 ? year + 2000 : year + 1900;
    s->epochdays = field(line1, 21, 32, 1e8);
    s->bstar = field(line1, 54, 59, 1e5) * pow(10.0, field(line1, 60, 61, 1.0));
    s->inclo = field(line2, 9, 16, 1e4) / rad;
    s->nodeo = field(line2, 18, 25, 1e4) / rad;
    s->ecco = field(line2, 27, 33, 1e7);
    s->argpo = field(line2, 35, 42, 1e4) / rad;
    s->mo = field(line2, 44, 51, 1e4) / rad;
    s->no = field(line2, 53, 63, 1e8) / xpdotp;
    year = s->epochyr - 1950;
    epoch = 365.0 * year + (year + 1) / 4 + s->epochdays - 1.0;
    return sgp4init(s, epoch);
}

#ifdef SIZE
static satrec s;
static uint8_t line1[70], line2[70];
static double state[6], states[48];

int main(int argc, char **argv)
{
    int i, answer;
    line1[0] = line2[0] = (uint8_t)**argv;
    answer = reference_open(&s, line1, line2);
    answer += reference_request(&s, argc, state);
    for (i = 0; i < 8; i++)
        answer += reference_request(&s, i * argc, states + 6 * i);
    return answer;
}
#endif
