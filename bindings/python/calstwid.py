"""Calstwid for Python: Hull-White interest-rate options priced and fitted.

    >>> import calstwid
    >>> calstwid.bond_call_price(alpha=0.5, times=[1, 2], factors=[1, 1], t=1, bond=2, strike=0.5, sigma=0)
    0.5

Every function answers whatever numbers it is given, with a value or with the first refusal that applies, which is raised as `Refused`. Each is
proved to meet its contract where it is written, in Rattle; this module hands numbers over and adds nothing to their meaning.

Times are years from today; rates, strikes of rates and volatilities are fractions a year (0.03 is 3 %); alpha is the mean reversion. A value is for
a notional of 1 except where a notional is an argument. `times` and `factors` are a discount curve of at most 2,048 points, times strictly rising.

A time at which a function needs the curve is on the curve or between two of its points. On the curve it has the factor listed there; strictly between
two neighbours (t0, f0) and (t1, f1) it has exp(ln(f0) + w * (ln(f1) - ln(f0))), w being (t - t0) / (t1 - t0), by this module's exp and ln. Before the
first point, after the last, and where that factor is not finite, the call is refused with 8. Where a function says that it needs t + 1/365, it is
t + 1.0 / 365.0.

A list of numbers is a list, a tuple, an array('d'), a numpy array of one dimension or anything else that iterates over numbers. An array('d') and
a numpy array of float64 are read where they are; others are copied. A number may be an int. What is no number raises TypeError: a complex number,
a bool and a numpy masked array, whose mask would be lost, are none. An int beyond a float's range raises ValueError, and so does a seed that is not from
0 to 2**64 - 1: nothing is cut to fit.

Other threads run while a call does: meanwhile none may write a list that is read where it is, and two calls at once may not share an `out`.

The library is libcalstwid.so: in the folder that the environment variable CALSTWID_LIB names (or the file that it names), else in target/lib of the
clone that this file stands in, else beside this file. It counts on the processor as every process starts: rounding to nearest, subnormal numbers kept.
"""
import ctypes
import os
import sys
from array import array
from collections.abc import Mapping, Set
from ctypes import POINTER, Structure, c_bool, c_double, c_size_t, c_uint8, c_uint64
from dataclasses import dataclass
from numbers import Complex, Real
from typing import Iterable, List, NamedTuple, Optional, Tuple

# all but max and min, which would hide Python's own
__all__ = (
    "A B Basket Bracket CriticalRate D1D2 Fit ImplicitRate PIECE_BYTES Refused SENTENCES Seeded Swaption Valuation"
    " bachelier_call black_call black_put bond_call_price bond_put_price calibrate_to_instruments caplet_price d1_d2"
    " draws draws_into exp"
    " exp_m1 find_critical_rate fit_caplet_black fit_caplet_normal fit_swaption_black fit_swaption_normal floorlet_price"
    " forward_rate_from_curve fused generate generate_into generate_published generate_published_into"
    " generate_published_seeded generate_published_seeded_into generate_seeded generate_seeded_into"
    " hull_white_piecewise_variance implicit_critical_rate ln"
    " midpoint norm_cdf norm_cdf_dual norm_pdf payer_swaption_value piece pillars_reached receiver_swaption_value"
    " run_file short_rate_variance signum sqrt swap_annuity_from_curve swaption_price theta transition_variances"
    " transition_variances_into volatility zcb_price zcb_price_volatility"
).split()

Numbers = Iterable[float]  # or a buffer of float64

# The room that a piece of a run file's output wants.
PIECE_BYTES = 131072

# What each answer says, by the number that documents 01 and 02 give it. A number says nothing of its place: the order is 1 to 6, 14, 7, 15, 8 to 13.
SENTENCES = {
    1: "a list is over its limit, paired lists differ in length, or an output is too short",
    2: "an input number is NaN or infinite",
    3: "alpha is zero or negative",
    4: "curve or pillar times do not strictly rise, or grid times fall",
    5: "an option or first grid time is below 0, a bond, end or payment time is not above the option time, or a fit's option time is 0",
    6: "a sigma is negative, a quoted volatility is not above 0, a Black strike is not above 0, a curve factor is not above 0, "
    "a coupon's own factor is negative or is 0 beside one that is not, or a side is neither 1 nor -1",
    7: "there are no coupons, or no pillars, where the call wants them",
    8: "a time that the call needs is before the curve's first point or after its last, the curve has no points, or the factor found between "
    "two points is not finite",
    9: "a critical-rate evaluation or a fit residual that is reached is NaN",
    10: "one of the two ladders has no good rate, so that there is no bracket",
    11: "the critical-rate derivative is below 1e-14 in size",
    12: "the residuals at 1e-8 and 2.0 have the same sign: no sigma between them fits",
    13: "a float of the answer is not finite",
    14: "a seed is zero",
    15: "a path centred as published serves one pillar, and there is more than one",
}


class Refused(Exception):
    """A call was turned down: `number` is 1 to 15, as documents 01 and 02 have it, and `sentence` says why.

    The first that applies is given, in the order 1 to 6, 14, 7, 15, 8 to 13: a number says nothing of its place."""

    def __init__(self, number: int):
        self.number = number
        self.sentence = SENTENCES.get(number, "this module does not know the number: take it and the library from one clone")
        super().__init__(number)

    def __str__(self) -> str:
        return f"refused {self.number}: {self.sentence}"


# ---- what is handed back


@dataclass(frozen=True)
class Bracket:
    """The two ends of a search after its last halving with the coupon sums there, and the rungs of the two ladders that it began at."""

    lower: float
    upper: float
    lower_sum: float
    upper_sum: float
    lower_rung: int
    upper_rung: int


@dataclass(frozen=True)
class CriticalRate:
    """The rate at which the coupon sum is 1: the midpoint of its bracket."""

    rate: float
    bracket: Bracket


@dataclass(frozen=True)
class ImplicitRate:
    """A critical rate, and the rate after one Newton step from it."""

    stepped: float
    rate: float
    bracket: Bracket


@dataclass(frozen=True)
class Swaption:
    """A swaption by the model, for a notional of 1, with its critical rate. All 0 where there are no coupons."""

    value: float
    rate: float
    bracket: Bracket


@dataclass(frozen=True)
class Valuation:
    """A swaption by the pricer: priced at the rate after the Newton step."""

    value: float
    stepped: float
    rate: float
    bracket: Bracket


@dataclass(frozen=True)
class Fit:
    """A fit: the sigma, the residual there, the last two ends with theirs, and the halvings made, 200 where it did not converge."""

    sigma: float
    residual: float
    low: float
    high: float
    low_residual: float
    high_residual: float
    halvings: int
    converged: bool


@dataclass(frozen=True)
class Basket:
    """A basket's fits in the order given, and the diagonal of sensitivities by fits to bumped volatilities. A status is whether a fit converged."""

    sigmas: Tuple[float, ...]
    statuses: Tuple[bool, ...]
    halvings: Tuple[int, ...]
    residuals: Tuple[float, ...]
    diagonal: Tuple[float, ...]
    bumped_statuses: Tuple[bool, ...]


@dataclass(frozen=True)
class D1D2:
    """Black's d1 and d2."""

    d1: float
    d2: float


class Seeded(NamedTuple):
    """What comes from a seed, draws or a path's rates, and the state reached, which is the seed of what follows: `values, state = draws(seed, 8)`."""

    values: List[float]
    state: int


# ---- the library's declarations, as in include/calstwid.h; bindings/declared holds them to that file


class _PriceReport(Structure):
    _fields_ = [("answer", c_uint64), ("value", c_double)]


class _D1D2Report(Structure):
    _fields_ = [("answer", c_uint64), ("d1", c_double), ("d2", c_double)]


class _CountReport(Structure):
    _fields_ = [("answer", c_uint64), ("count", c_uint64)]


class _DrawsReport(Structure):
    _fields_ = [("answer", c_uint64), ("count", c_uint64), ("state", c_uint64)]


class _CriticalRateReport(Structure):
    _fields_ = [
        ("answer", c_uint64),
        ("rate", c_double),
        ("lower", c_double),
        ("upper", c_double),
        ("lower_sum", c_double),
        ("upper_sum", c_double),
        ("lower_rung", c_uint64),
        ("upper_rung", c_uint64),
    ]


class _ImplicitRateReport(Structure):
    _fields_ = [
        ("answer", c_uint64),
        ("stepped", c_double),
        ("rate", c_double),
        ("lower", c_double),
        ("upper", c_double),
        ("lower_sum", c_double),
        ("upper_sum", c_double),
        ("lower_rung", c_uint64),
        ("upper_rung", c_uint64),
    ]


class _SwaptionReport(Structure):
    _fields_ = [
        ("answer", c_uint64),
        ("value", c_double),
        ("rate", c_double),
        ("lower", c_double),
        ("upper", c_double),
        ("lower_sum", c_double),
        ("upper_sum", c_double),
        ("lower_rung", c_uint64),
        ("upper_rung", c_uint64),
    ]


class _ValuationReport(Structure):
    _fields_ = [
        ("answer", c_uint64),
        ("value", c_double),
        ("stepped", c_double),
        ("rate", c_double),
        ("lower", c_double),
        ("upper", c_double),
        ("lower_sum", c_double),
        ("upper_sum", c_double),
        ("lower_rung", c_uint64),
        ("upper_rung", c_uint64),
    ]


class _FitReport(Structure):
    _fields_ = [
        ("answer", c_uint64),
        ("sigma", c_double),
        ("residual", c_double),
        ("low", c_double),
        ("high", c_double),
        ("low_residual", c_double),
        ("high_residual", c_double),
        ("halvings", c_uint64),
        ("converged", c_bool),
    ]


class _BasketReport(Structure):
    _fields_ = [
        ("answer", c_uint64),
        ("count", c_uint64),
        ("sigmas", c_double * 64),
        ("statuses", c_double * 64),
        ("halvings", c_double * 64),
        ("residuals", c_double * 64),
        ("diagonal", c_double * 64),
        ("bumped_statuses", c_double * 64),
    ]


def _load() -> ctypes.CDLL:
    here = os.path.dirname(os.path.realpath(__file__))
    name = "libcalstwid.so"
    named = os.environ.get("CALSTWID_LIB")
    if named:
        places = [os.path.join(named, name) if os.path.isdir(named) else named]
    else:
        places = [os.path.join(here, "..", "..", "target", "lib", name), os.path.join(here, name)]
    to_run = "run tools/library/build in a clone of Calstwid, or set CALSTWID_LIB to the folder that has " + name
    path = next((os.path.realpath(place) for place in places if os.path.exists(place)), None)
    if path is None:
        raise ImportError("calstwid: there is no " + " and no ".join(map(os.path.normpath, places)) + ": " + to_run)
    try:
        return ctypes.CDLL(path)
    except OSError as error:
        raise ImportError(f"calstwid: {path} cannot be loaded ({error}): {to_run}") from error


_library = _load()
_F64, _SIZE, _U64 = (c_double,), (c_size_t,), (c_uint64,)
_LIST, _BOOLS, _BYTES = (POINTER(c_double), c_size_t), (POINTER(c_bool), c_size_t), (POINTER(c_uint8), c_size_t)
_OUT, _OUT_BYTES = _LIST, _BYTES


def _declare(name, report, **arguments):
    """A function of the library, by its name, what it returns, and its arguments in their order: a list is its address and its length."""
    try:
        function = getattr(_library, name)
    except AttributeError:
        raise ImportError(f"calstwid: {_library._name} has no {name}: take this module and the library from one clone") from None
    function.restype = report
    function.argtypes = [part for parts in arguments.values() for part in parts]
    return function


_fused = _declare("calstwid_fused", c_double, a=_F64, b=_F64, c=_F64)
_sqrt = _declare("calstwid_sqrt", c_double, x=_F64)
_exp = _declare("calstwid_exp", c_double, x=_F64)
_exp_m1 = _declare("calstwid_exp_m1", c_double, y=_F64)
_ln = _declare("calstwid_ln", c_double, x=_F64)
_norm_pdf = _declare("calstwid_norm_pdf", c_double, d=_F64)
_norm_cdf = _declare("calstwid_norm_cdf", c_double, x=_F64)
_norm_cdf_dual = _declare("calstwid_norm_cdf_dual", c_double, x=_F64)
_midpoint = _declare("calstwid_midpoint", c_double, a=_F64, b=_F64)
_signum = _declare("calstwid_signum", c_double, x=_F64)
_max = _declare("calstwid_max", c_double, a=_F64, b=_F64)
_min = _declare("calstwid_min", c_double, a=_F64, b=_F64)
_B = _declare("calstwid_B", _PriceReport, alpha=_F64, t=_F64, bond=_F64)
_A = _declare("calstwid_A", _PriceReport, alpha=_F64, times=_LIST, factors=_LIST, t=_F64, bond=_F64, sigma=_F64)
_zcb_price = _declare(
    "calstwid_zcb_price", _PriceReport, alpha=_F64, times=_LIST, factors=_LIST, rate=_F64, t=_F64, bond=_F64, sigma=_F64
)
_zcb_price_volatility = _declare("calstwid_zcb_price_volatility", _PriceReport, alpha=_F64, sigma=_F64, t=_F64, bond=_F64)
_short_rate_variance = _declare("calstwid_short_rate_variance", _PriceReport, alpha=_F64, t=_F64, bond=_F64, sigma=_F64)
_theta = _declare("calstwid_theta", _PriceReport, alpha=_F64, times=_LIST, factors=_LIST, t=_F64, sigma=_F64)
_forward_rate_from_curve = _declare("calstwid_forward_rate_from_curve", _PriceReport, times=_LIST, factors=_LIST, t=_F64)
_volatility = _declare("calstwid_volatility", _PriceReport, times=_LIST, sigmas=_LIST, t=_F64)
_pillars_reached = _declare("calstwid_pillars_reached", _CountReport, times=_LIST, sigmas=_LIST, t=_F64)
_hull_white_piecewise_variance = _declare(
    "calstwid_hull_white_piecewise_variance", _PriceReport, alpha=_F64, times=_LIST, sigmas=_LIST, start=_F64, end=_F64
)
_transition_variances = _declare(
    "calstwid_transition_variances", _CountReport, alpha=_F64, times=_LIST, sigmas=_LIST, steps=_SIZE, time_step=_F64, out=_OUT
)
_d1_d2 = _declare("calstwid_d1_d2", _D1D2Report, fwd=_F64, strike=_F64, vol=_F64, tau=_F64)
_black_call = _declare("calstwid_black_call", _PriceReport, fwd=_F64, strike=_F64, vol=_F64, tau=_F64)
_black_put = _declare("calstwid_black_put", _PriceReport, fwd=_F64, strike=_F64, vol=_F64, tau=_F64)
_bachelier_call = _declare("calstwid_bachelier_call", _PriceReport, fwd=_F64, strike=_F64, vol=_F64, tau=_F64)
_swap_annuity_from_curve = _declare(
    "calstwid_swap_annuity_from_curve", _PriceReport, times=_LIST, factors=_LIST, payments=_LIST, accruals=_LIST
)
_caplet_price = _declare(
    "calstwid_caplet_price", _PriceReport, alpha=_F64, times=_LIST, factors=_LIST, strike=_F64, start=_F64, end=_F64, sigma=_F64
)
_floorlet_price = _declare(
    "calstwid_floorlet_price", _PriceReport, alpha=_F64, times=_LIST, factors=_LIST, strike=_F64, start=_F64, end=_F64, sigma=_F64
)
_bond_put_price = _declare(
    "calstwid_bond_put_price", _PriceReport, alpha=_F64, times=_LIST, factors=_LIST, t=_F64, bond=_F64, strike=_F64, sigma=_F64
)
_bond_call_price = _declare(
    "calstwid_bond_call_price", _PriceReport, alpha=_F64, times=_LIST, factors=_LIST, t=_F64, bond=_F64, strike=_F64, sigma=_F64
)
_swaption_price = _declare(
    "calstwid_swaption_price",
    _SwaptionReport,
    alpha=_F64,
    times=_LIST,
    factors=_LIST,
    payments=_LIST,
    accruals=_LIST,
    strike=_F64,
    t=_F64,
    sigma=_F64,
)
_payer_swaption_value = _declare(
    "calstwid_payer_swaption_value",
    _ValuationReport,
    alpha=_F64,
    pillars=_LIST,
    sigmas=_LIST,
    times=_LIST,
    factors=_LIST,
    payments=_LIST,
    accruals=_LIST,
    own_dfs=_LIST,
    strike=_F64,
    t=_F64,
    notional=_F64,
    side=_F64,
)
_receiver_swaption_value = _declare(
    "calstwid_receiver_swaption_value",
    _ValuationReport,
    alpha=_F64,
    pillars=_LIST,
    sigmas=_LIST,
    times=_LIST,
    factors=_LIST,
    payments=_LIST,
    accruals=_LIST,
    own_dfs=_LIST,
    strike=_F64,
    t=_F64,
    notional=_F64,
    side=_F64,
)
_find_critical_rate = _declare("calstwid_find_critical_rate", _CriticalRateReport, coefficients=_LIST, affines=_LIST, b=_LIST)
_implicit_critical_rate = _declare("calstwid_implicit_critical_rate", _ImplicitRateReport, coefficients=_LIST, affines=_LIST, b=_LIST)
_fit_caplet_black = _declare(
    "calstwid_fit_caplet_black", _FitReport, alpha=_F64, times=_LIST, factors=_LIST, strike=_F64, start=_F64, end=_F64, vol=_F64
)
_fit_caplet_normal = _declare(
    "calstwid_fit_caplet_normal", _FitReport, alpha=_F64, times=_LIST, factors=_LIST, strike=_F64, start=_F64, end=_F64, vol=_F64
)
_fit_swaption_black = _declare(
    "calstwid_fit_swaption_black",
    _FitReport,
    alpha=_F64,
    times=_LIST,
    factors=_LIST,
    payments=_LIST,
    accruals=_LIST,
    strike=_F64,
    t=_F64,
    vol=_F64,
)
_fit_swaption_normal = _declare(
    "calstwid_fit_swaption_normal",
    _FitReport,
    alpha=_F64,
    times=_LIST,
    factors=_LIST,
    payments=_LIST,
    accruals=_LIST,
    strike=_F64,
    t=_F64,
    vol=_F64,
)
_calibrate_to_instruments = _declare(
    "calstwid_calibrate_to_instruments",
    _BasketReport,
    alpha=_F64,
    times=_LIST,
    factors=_LIST,
    normals=_BOOLS,
    strikes=_LIST,
    starts=_LIST,
    ends=_LIST,
    vols=_LIST,
)
_generate = _declare(
    "calstwid_generate",
    _CountReport,
    alpha=_F64,
    pillars=_LIST,
    sigmas=_LIST,
    times=_LIST,
    factors=_LIST,
    grid=_LIST,
    draws=_LIST,
    out=_OUT,
)
_generate_published = _declare(
    "calstwid_generate_published",
    _CountReport,
    alpha=_F64,
    pillars=_LIST,
    sigmas=_LIST,
    times=_LIST,
    factors=_LIST,
    grid=_LIST,
    draws=_LIST,
    out=_OUT,
)
_draws = _declare("calstwid_draws", _DrawsReport, seed=_U64, out=_OUT)
_generate_seeded = _declare(
    "calstwid_generate_seeded",
    _DrawsReport,
    alpha=_F64,
    pillars=_LIST,
    sigmas=_LIST,
    times=_LIST,
    factors=_LIST,
    grid=_LIST,
    seed=_U64,
    out=_OUT,
)
_generate_published_seeded = _declare(
    "calstwid_generate_published_seeded",
    _DrawsReport,
    alpha=_F64,
    pillars=_LIST,
    sigmas=_LIST,
    times=_LIST,
    factors=_LIST,
    grid=_LIST,
    seed=_U64,
    out=_OUT,
)
_piece = _declare("calstwid_piece", _CountReport, file=_BYTES, k=_SIZE, out=_OUT_BYTES)


# ---- numbers and lists on their way in


def _is_masked(x) -> bool:
    """Whether it is a numpy masked array or numpy's `masked`. Where numpy.ma is not loaded there is none."""
    numpy_ma = sys.modules.get("numpy.ma")
    return numpy_ma is not None and isinstance(x, numpy_ma.MaskedArray)


def _kind(x) -> Optional[str]:
    """The letter by which numpy has the sort of an array or of one of its numbers; None of others."""
    return getattr(getattr(x, "dtype", None), "kind", None)


def _number(name: str, x) -> float:
    if type(x) is float:
        return x
    wrong = isinstance(x, (str, bytes, bytearray, bool)) or (isinstance(x, Complex) and not isinstance(x, Real))
    # float() of numpy's bools, complex numbers and times would give a number
    if wrong or _kind(x) not in (None, "f", "i", "u") or _is_masked(x):
        raise TypeError(f"{name}: a number is wanted, not {type(x).__name__}")
    try:
        return float(x)
    except TypeError:
        raise TypeError(f"{name}: a number is wanted, not {type(x).__name__}") from None
    except OverflowError:
        raise ValueError(f"{name}: a number within a float's range is wanted, and this {type(x).__name__} is beyond it") from None


def _view(xs) -> Optional[memoryview]:
    try:
        return memoryview(xs)
    except (TypeError, ValueError):
        return None


def _is_doubles(view: memoryview) -> bool:
    return view.ndim == 1 and view.c_contiguous and view.itemsize == 8 and view.format in ("d", "@d", "=d", "<d")


def _is_aligned(held) -> bool:
    return ctypes.addressof(held) % ctypes.alignment(c_double) == 0


def _list(name: str, xs) -> tuple:
    """The list's doubles and their count; where there are none, an address all the same."""
    if isinstance(xs, (str, bytes, bytearray, Mapping, Set)) or _is_masked(xs):
        raise TypeError(f"{name}: a list of numbers is wanted, not {type(xs).__name__}")
    view = _view(xs)
    if view is None:
        view = memoryview(_copied(name, xs))
    elif not _is_doubles(view):
        dimensions, sort = view.ndim, view.format
        # a view that an error's frame kept would keep the list locked
        view.release()
        if dimensions != 1 or sort.lstrip("@=<>!") not in tuple("dfebBhHiIlLqQnN"):
            raise TypeError(f"{name}: a list of real numbers in one dimension is wanted, not {dimensions} of format {sort!r}")
        try:
            view = memoryview(array("d", xs))
        except NotImplementedError:
            raise TypeError(f"{name}: Python does not read a memoryview of format {sort!r}: hand over numbers in the machine's own order") from None
    count = len(view)
    if count == 0:
        return (c_double * 1)(), 0
    # ctypes lends in place only what could be written
    held = None if view.readonly else (c_double * count).from_buffer(view)
    return (held if held is not None and _is_aligned(held) else (c_double * count).from_buffer_copy(view)), count


def _copied(name: str, xs) -> array:
    """The numbers of what is no buffer, each looked at by itself."""
    try:
        each = iter(xs)
    except TypeError:
        raise TypeError(f"{name}: a list of numbers is wanted, not {type(xs).__name__}") from None
    return array("d", [_number(name, x) for x in each])


def _bools(name: str, xs) -> tuple:
    if _is_masked(xs):
        raise TypeError(f"{name}: a list of bools is wanted, not {type(xs).__name__}")
    view = _view(xs)
    if view is not None:
        dimensions, sort = view.ndim, view.format
        values = view.tolist() if dimensions == 1 and sort == "?" else None
        view.release()
        if values is None:
            raise TypeError(f"{name}: a list of bools in one dimension is wanted, not {dimensions} of format {sort!r}")
    else:
        values = list(xs)
    for x in values:
        # numpy's own bool is one as well, an array of them is none
        if not isinstance(x, bool) and (_kind(x) != "b" or getattr(x, "ndim", None) != 0 or _is_masked(x)):
            raise TypeError(f"{name}: a list of bools is wanted, not of {type(x).__name__}")
    values = [bool(x) for x in values]
    return (c_bool * (len(values) or 1))(*values), len(values)


def _lent(name: str, out) -> tuple:
    """A list to be written where it is."""
    view = None if _is_masked(out) else _view(out)
    if view is None or view.readonly or not _is_doubles(view):
        view = None  # else an error that is kept would keep the list locked
        raise TypeError(f"{name}: an array('d') or another list of float64 that can be written in place is wanted, not {type(out).__name__}")
    held = (c_double * len(view)).from_buffer(view) if len(view) else (c_double * 1)()
    if not _is_aligned(held):
        view = held = None
        raise TypeError(f"{name}: a list that is aligned for float64 is wanted")
    return held, len(view)


def _writing(function, out, *arguments):
    """Calls a function that writes to `out`, its last list. The library wants that list apart from all others: one that shares memory is copied."""
    held = None
    try:
        held, room = _lent("out", out)
        first = ctypes.addressof(held)
        last = first + 8 * room

        def apart(one):
            if isinstance(one, ctypes.Array) and first < ctypes.addressof(one) + ctypes.sizeof(one) and ctypes.addressof(one) < last:
                return type(one).from_buffer_copy(one)
            return one

        return _served(function(*map(apart, arguments), held, room))
    finally:
        # an error that a caller keeps has this frame in it, and would keep the lists locked
        del held, arguments


def _whole(name: str, n) -> int:
    """What the library has as a size_t or a uint64_t. ctypes would cut a larger number, or one below 0, without a word."""
    if isinstance(n, (float, bool)) or _kind(n) not in (None, "i", "u") or not hasattr(n, "__index__"):
        raise TypeError(f"{name}: an int is wanted, not {type(n).__name__}")
    n = n.__index__()
    if not 0 <= n < 1 << 64:
        raise ValueError(f"{name}: an int from 0 to 2**64 - 1 is wanted")
    return n


def _served(report):
    if report.answer != 0:
        raise Refused(report.answer)
    return report


def _bracket(report) -> Bracket:
    return Bracket(report.lower, report.upper, report.lower_sum, report.upper_sum, report.lower_rung, report.upper_rung)


def _fit(report) -> Fit:
    _served(report)
    return Fit(
        report.sigma,
        report.residual,
        report.low,
        report.high,
        report.low_residual,
        report.high_residual,
        report.halvings,
        report.converged,
    )


# ---- the elementary and normal functions, which refuse nothing


def fused(a: float, b: float, c: float) -> float:
    """a * b + c with a single rounding."""
    return _fused(_number("a", a), _number("b", b), _number("c", c))


def sqrt(x: float) -> float:
    """The square root; NaN below 0."""
    return _sqrt(_number("x", x))


def exp(x: float) -> float:
    """e to the power of x; infinity above 710."""
    return _exp(_number("x", x))


def exp_m1(y: float) -> float:
    """exp(y) - 1."""
    return _exp_m1(_number("y", y))


def ln(x: float) -> float:
    """The natural logarithm; NaN below 0, -infinity at 0."""
    return _ln(_number("x", x))


def norm_pdf(d: float) -> float:
    """The density of the normal distribution."""
    return _norm_pdf(_number("d", d))


def norm_cdf(x: float) -> float:
    """The normal distribution by fused steps."""
    return _norm_cdf(_number("x", x))


def norm_cdf_dual(x: float) -> float:
    """The normal distribution by a product and then a sum, as the pricer has it: last bits differ from norm_cdf."""
    return _norm_cdf_dual(_number("x", x))


def midpoint(a: float, b: float) -> float:
    """(a + b) / 2."""
    return _midpoint(_number("a", a), _number("b", b))


def signum(x: float) -> float:
    """1 for +0, -1 for -0, NaN for NaN."""
    return _signum(_number("x", x))


def max(a: float, b: float) -> float:
    """The larger of two numbers; passes over a NaN."""
    return _max(_number("a", a), _number("b", b))


def min(a: float, b: float) -> float:
    """The smaller of two numbers; passes over a NaN."""
    return _min(_number("a", a), _number("b", b))


# ---- the model's formulas


def B(alpha: float, t: float, bond: float) -> float:
    """B of the model from the option time t to the bond time."""
    return _served(_B(_number("alpha", alpha), _number("t", t), _number("bond", bond))).value


def A(alpha: float, times: Numbers, factors: Numbers, t: float, bond: float, sigma: float) -> float:
    """A of the model from the option time t to the bond time. Needs the curve at t, t + 1/365 and the bond time."""
    return _served(
        _A(
            _number("alpha", alpha),
            *_list("times", times),
            *_list("factors", factors),
            _number("t", t),
            _number("bond", bond),
            _number("sigma", sigma),
        )
    ).value


def zcb_price(alpha: float, times: Numbers, factors: Numbers, rate: float, t: float, bond: float, sigma: float) -> float:
    """The bond's price at t, the short rate then being `rate`. Needs the curve at t, t + 1/365 and the bond time."""
    return _served(
        _zcb_price(
            _number("alpha", alpha),
            *_list("times", times),
            *_list("factors", factors),
            _number("rate", rate),
            _number("t", t),
            _number("bond", bond),
            _number("sigma", sigma),
        )
    ).value


def zcb_price_volatility(alpha: float, sigma: float, t: float, bond: float) -> float:
    """The volatility of the bond's price over the option's life."""
    return _served(
        _zcb_price_volatility(_number("alpha", alpha), _number("sigma", sigma), _number("t", t), _number("bond", bond))
    ).value


def short_rate_variance(alpha: float, t: float, bond: float, sigma: float) -> float:
    """The variance of the short rate from t to the bond time."""
    return _served(
        _short_rate_variance(_number("alpha", alpha), _number("t", t), _number("bond", bond), _number("sigma", sigma))
    ).value


def theta(alpha: float, times: Numbers, factors: Numbers, t: float, sigma: float) -> float:
    """The drift of the model at t. Needs the curve at t, t + 1/365 and t - 1/365, or where t is not above 1/365 at fused(2, 1/365, t)."""
    return _served(
        _theta(_number("alpha", alpha), *_list("times", times), *_list("factors", factors), _number("t", t), _number("sigma", sigma))
    ).value


def forward_rate_from_curve(times: Numbers, factors: Numbers, t: float) -> float:
    """The forward rate from t to t + 1/365. Needs the curve at both."""
    return _served(_forward_rate_from_curve(*_list("times", times), *_list("factors", factors), _number("t", t))).value


def volatility(times: Numbers, sigmas: Numbers, t: float) -> float:
    """The sigma at t: that of the last pillar at or before t, else the first; no pillars are refused."""
    return _served(_volatility(*_list("times", times), *_list("sigmas", sigmas), _number("t", t))).value


def pillars_reached(times: Numbers, sigmas: Numbers, t: float) -> int:
    """How many pillar times are at or before t: the first so many of `times`."""
    return _served(_pillars_reached(*_list("times", times), *_list("sigmas", sigmas), _number("t", t))).count


def hull_white_piecewise_variance(alpha: float, times: Numbers, sigmas: Numbers, start: float, end: float) -> float:
    """The state variance from start to end, the pillars being `times` and `sigmas`, 0 without any; any finite alpha is taken."""
    return _served(
        _hull_white_piecewise_variance(
            _number("alpha", alpha), *_list("times", times), *_list("sigmas", sigmas), _number("start", start), _number("end", end)
        )
    ).value


def transition_variances_into(alpha: float, times: Numbers, sigmas: Numbers, steps: int, time_step: float, out) -> int:
    """Writes the variance of each of the steps to the front of `out`, an array('d') or a numpy array of float64, and says how many were written.

    `out` is untouched where the call is refused."""
    return _writing(
        _transition_variances,
        out,
        _number("alpha", alpha),
        *_list("times", times),
        *_list("sigmas", sigmas),
        _whole("steps", steps),
        _number("time_step", time_step),
    ).count


def transition_variances(alpha: float, times: Numbers, sigmas: Numbers, steps: int, time_step: float) -> List[float]:
    """The variance of each of the steps, at most 1,024, the pillars being `times` and `sigmas`."""
    steps = _whole("steps", steps)
    # more than the limit are refused whatever the room
    out = array("d", bytes(8 * (steps if steps <= 1024 else 1024)))
    return out[: transition_variances_into(alpha, times, sigmas, steps, time_step, out)].tolist()


# ---- quotes


def d1_d2(fwd: float, strike: float, vol: float, tau: float) -> D1D2:
    """Black's d1 and d2."""
    report = _served(_d1_d2(_number("fwd", fwd), _number("strike", strike), _number("vol", vol), _number("tau", tau)))
    return D1D2(report.d1, report.d2)


def black_call(fwd: float, strike: float, vol: float, tau: float) -> float:
    """Black's call on a forward, undiscounted."""
    return _served(_black_call(_number("fwd", fwd), _number("strike", strike), _number("vol", vol), _number("tau", tau))).value


def black_put(fwd: float, strike: float, vol: float, tau: float) -> float:
    """Black's put on a forward, undiscounted."""
    return _served(_black_put(_number("fwd", fwd), _number("strike", strike), _number("vol", vol), _number("tau", tau))).value


def bachelier_call(fwd: float, strike: float, vol: float, tau: float) -> float:
    """Bachelier's call on a forward, undiscounted; the volatility is normal."""
    return _served(_bachelier_call(_number("fwd", fwd), _number("strike", strike), _number("vol", vol), _number("tau", tau))).value


def swap_annuity_from_curve(times: Numbers, factors: Numbers, payments: Numbers, accruals: Numbers) -> float:
    """The sum of accrual * factor over at most 64 coupons; 0 for none. Needs the curve at each payment time."""
    return _served(
        _swap_annuity_from_curve(
            *_list("times", times), *_list("factors", factors), *_list("payments", payments), *_list("accruals", accruals)
        )
    ).value


# ---- options


def _optionlet(function, alpha, times, factors, strike, start, end, last, name):
    return function(
        _number("alpha", alpha),
        *_list("times", times),
        *_list("factors", factors),
        _number("strike", strike),
        _number("start", start),
        _number("end", end),
        _number(name, last),
    )


def caplet_price(alpha: float, times: Numbers, factors: Numbers, strike: float, start: float, end: float, sigma: float) -> float:
    """Kind 1: a caplet on the rate from start to end. Needs the curve at both."""
    return _served(_optionlet(_caplet_price, alpha, times, factors, strike, start, end, sigma, "sigma")).value


def floorlet_price(alpha: float, times: Numbers, factors: Numbers, strike: float, start: float, end: float, sigma: float) -> float:
    """Kind 2: a floorlet on the rate from start to end. Needs the curve at both."""
    return _served(_optionlet(_floorlet_price, alpha, times, factors, strike, start, end, sigma, "sigma")).value


def _bond_option(function, alpha, times, factors, t, bond, strike, sigma):
    return _served(
        function(
            _number("alpha", alpha),
            *_list("times", times),
            *_list("factors", factors),
            _number("t", t),
            _number("bond", bond),
            _number("strike", strike),
            _number("sigma", sigma),
        )
    ).value


def bond_put_price(alpha: float, times: Numbers, factors: Numbers, t: float, bond: float, strike: float, sigma: float) -> float:
    """Kind 3: a put at t on the bond that pays 1 at the bond time. Needs the curve at both."""
    return _bond_option(_bond_put_price, alpha, times, factors, t, bond, strike, sigma)


def bond_call_price(alpha: float, times: Numbers, factors: Numbers, t: float, bond: float, strike: float, sigma: float) -> float:
    """Kind 4: a call at t on the bond that pays 1 at the bond time. Needs the curve at both."""
    return _bond_option(_bond_call_price, alpha, times, factors, t, bond, strike, sigma)


def _on_swap(function, alpha, times, factors, payments, accruals, strike, t, last, name):
    return function(
        _number("alpha", alpha),
        *_list("times", times),
        *_list("factors", factors),
        *_list("payments", payments),
        *_list("accruals", accruals),
        _number("strike", strike),
        _number("t", t),
        _number(name, last),
    )


def swaption_price(
    alpha: float, times: Numbers, factors: Numbers, payments: Numbers, accruals: Numbers, strike: float, t: float, sigma: float
) -> Swaption:
    """Kind 5: the payer swaption by the model; t is the option's time. Needs the curve at t, t + 1/365 and the payment times.

    With no coupons it is 0 and needs no time."""
    report = _served(_on_swap(_swaption_price, alpha, times, factors, payments, accruals, strike, t, sigma, "sigma"))
    return Swaption(report.value, report.rate, _bracket(report))


def _swaption_value(function, alpha, pillars, sigmas, times, factors, payments, accruals, own_dfs, strike, t, notional, side):
    payments, n = _list("payments", payments)
    try:
        report = _served(
            function(
                _number("alpha", alpha),
                *_list("pillars", pillars),
                *_list("sigmas", sigmas),
                *_list("times", times),
                *_list("factors", factors),
                payments,
                n,
                *_list("accruals", accruals),
                *_list("own_dfs", array("d", bytes(8 * n)) if own_dfs is None else own_dfs),
                _number("strike", strike),
                _number("t", t),
                _number("notional", notional),
                _number("side", side),
            )
        )
    finally:
        # as in _writing
        del payments
    return Valuation(report.value, report.stepped, report.rate, _bracket(report))


def payer_swaption_value(
    alpha: float,
    pillars: Numbers,
    sigmas: Numbers,
    times: Numbers,
    factors: Numbers,
    payments: Numbers,
    accruals: Numbers,
    own_dfs: Optional[Numbers],
    strike: float,
    t: float,
    notional: float,
    side: float,
) -> Valuation:
    """Kind 6: the payer swaption by the pricer, the variance up to t being that of the pillars.

    `own_dfs` has a discount factor of its own for each coupon; None, or 0 for each, means the curve's. `side` is 1 (bought) or -1 (sold).
    Needs the curve at t, t + 1/365 and the payment times. No pillars, neither times nor sigmas, are a fixed-rate scenario: the variance is 0,
    and every bond option is at intrinsic value."""
    return _swaption_value(
        _payer_swaption_value, alpha, pillars, sigmas, times, factors, payments, accruals, own_dfs, strike, t, notional, side
    )


def receiver_swaption_value(
    alpha: float,
    pillars: Numbers,
    sigmas: Numbers,
    times: Numbers,
    factors: Numbers,
    payments: Numbers,
    accruals: Numbers,
    own_dfs: Optional[Numbers],
    strike: float,
    t: float,
    notional: float,
    side: float,
) -> Valuation:
    """Kind 7: the receiver swaption by the pricer; as payer_swaption_value."""
    return _swaption_value(
        _receiver_swaption_value, alpha, pillars, sigmas, times, factors, payments, accruals, own_dfs, strike, t, notional, side
    )


# ---- the critical rate


def find_critical_rate(coefficients: Numbers, affines: Numbers, b: Numbers) -> CriticalRate:
    """The rate at which the sum of coefficient * A * exp(-B * rate) is 1."""
    report = _served(_find_critical_rate(*_list("coefficients", coefficients), *_list("affines", affines), *_list("b", b)))
    return CriticalRate(report.rate, _bracket(report))


def implicit_critical_rate(coefficients: Numbers, affines: Numbers, b: Numbers) -> ImplicitRate:
    """The same with one Newton step after it."""
    report = _served(_implicit_critical_rate(*_list("coefficients", coefficients), *_list("affines", affines), *_list("b", b)))
    return ImplicitRate(report.stepped, report.rate, _bracket(report))


# ---- fits


def fit_caplet_black(alpha: float, times: Numbers, factors: Numbers, strike: float, start: float, end: float, vol: float) -> Fit:
    """Kind 8: the sigma, from 1e-8 to 2.0, at which the model's caplet has the price that Black's volatility gives it. Needs the curve at start and end."""
    return _fit(_optionlet(_fit_caplet_black, alpha, times, factors, strike, start, end, vol, "vol"))


def fit_caplet_normal(alpha: float, times: Numbers, factors: Numbers, strike: float, start: float, end: float, vol: float) -> Fit:
    """Kind 9: the sigma at which the model's caplet has the price that the normal volatility gives it; as fit_caplet_black."""
    return _fit(_optionlet(_fit_caplet_normal, alpha, times, factors, strike, start, end, vol, "vol"))


def fit_swaption_black(
    alpha: float, times: Numbers, factors: Numbers, payments: Numbers, accruals: Numbers, strike: float, t: float, vol: float
) -> Fit:
    """Kind 10: the sigma at which the model's swaption has the price that Black's volatility gives it.

    The swap ends at its last listed payment. Needs the curve at t, t + 1/365 and the payment times."""
    return _fit(_on_swap(_fit_swaption_black, alpha, times, factors, payments, accruals, strike, t, vol, "vol"))


def fit_swaption_normal(
    alpha: float, times: Numbers, factors: Numbers, payments: Numbers, accruals: Numbers, strike: float, t: float, vol: float
) -> Fit:
    """Kind 11: the sigma at which the model's swaption has the price that the normal volatility gives it; as fit_swaption_black."""
    return _fit(_on_swap(_fit_swaption_normal, alpha, times, factors, payments, accruals, strike, t, vol, "vol"))


def calibrate_to_instruments(
    alpha: float,
    times: Numbers,
    factors: Numbers,
    normals: Iterable[bool],
    strikes: Numbers,
    starts: Numbers,
    ends: Numbers,
    vols: Numbers,
) -> Basket:
    """A fit for each of at most 64 caplets, and one for each with its volatility bumped. The first refusal refuses the basket.

    `normals` says of each quoted volatility whether it is normal (True) or Black's (False). Needs the curve at each start and end."""
    report = _served(
        _calibrate_to_instruments(
            _number("alpha", alpha),
            *_list("times", times),
            *_list("factors", factors),
            *_bools("normals", normals),
            *_list("strikes", strikes),
            *_list("starts", starts),
            *_list("ends", ends),
            *_list("vols", vols),
        )
    )
    n = report.count
    return Basket(
        tuple(report.sigmas[:n]),
        tuple(status == 1 for status in report.statuses[:n]),
        tuple(map(int, report.halvings[:n])),
        tuple(report.residuals[:n]),
        tuple(report.diagonal[:n]),
        tuple(status == 1 for status in report.bumped_statuses[:n]),
    )


# ---- paths


def _of_draws(draws) -> tuple:
    return _list("draws", draws)


def _of_seed(seed) -> tuple:
    return (_whole("seed", seed),)


def _path_into(function, out, alpha, pillars, sigmas, times, factors, grid, handed, drawn):
    """The report of one of the four functions that work a path; `handed` makes what the library is given of `drawn`, which is a list of draws or a seed."""
    return _writing(
        function,
        out,
        _number("alpha", alpha),
        *_list("pillars", pillars),
        *_list("sigmas", sigmas),
        *_list("times", times),
        *_list("factors", factors),
        *_list("grid", grid),
        *handed(drawn),
    )


def _path(function, alpha, pillars, sigmas, times, factors, grid, handed, drawn) -> tuple:
    """The report, and the rates that were written."""
    grid = grid if hasattr(grid, "__len__") else list(grid)
    out = array("d", bytes(8 * len(grid)))
    report = _path_into(function, out, alpha, pillars, sigmas, times, factors, grid, handed, drawn)
    return report, out[: report.count].tolist()


def generate_into(
    alpha: float, pillars: Numbers, sigmas: Numbers, times: Numbers, factors: Numbers, grid: Numbers, draws: Numbers, out
) -> int:
    """Writes the path to the front of `out`, an array('d') or a numpy array of float64, and says how many values were written.

    `out` is untouched where the call is refused."""
    return _path_into(_generate, out, alpha, pillars, sigmas, times, factors, grid, _of_draws, draws).count


def generate(
    alpha: float, pillars: Numbers, sigmas: Numbers, times: Numbers, factors: Numbers, grid: Numbers, draws: Numbers
) -> List[float]:
    """Kind 12: the short rate at each of at most 1,024 grid times, `draws` having a standard normal number for each.

    `pillars` and `sigmas` are the model's volatility: a sigma holds from its time to the next, the first from the start. Needs the curve at each grid
    time and 1/365 after it.

    The rate is a state, which walks from 0 and has the mean 0, plus a shift: the forward rate plus half the state's variance. Averaged over many paths,
    exp(-integral of the rate) so misses the curve's factors; generate_published does not."""
    return _path(_generate, alpha, pillars, sigmas, times, factors, grid, _of_draws, draws)[1]


def generate_published_into(
    alpha: float, pillars: Numbers, sigmas: Numbers, times: Numbers, factors: Numbers, grid: Numbers, draws: Numbers, out
) -> int:
    """generate_published as generate_into: writes to the front of `out`, which is untouched where the call is refused."""
    return _path_into(_generate_published, out, alpha, pillars, sigmas, times, factors, grid, _of_draws, draws).count


def generate_published(
    alpha: float, pillars: Numbers, sigmas: Numbers, times: Numbers, factors: Numbers, grid: Numbers, draws: Numbers
) -> List[float]:
    """Kind 13: the walk of generate centred as Brigo and Mercurio publish it.

    At a grid time t the shift is f + 0.5 * (g * g), f being the forward rate and g = (sigma / alpha) * (1 - exp((-alpha) * t)) by this module's exp, every
    operation rounded once. It serves one pillar: none is refused with 7, and more than one directly after it with 15, before the curve is looked at. All
    else is as in generate."""
    return _path(_generate_published, alpha, pillars, sigmas, times, factors, grid, _of_draws, draws)[1]


# ---- draws and paths from a seed


def draws_into(seed: int, out) -> int:
    """Fills the whole of `out`, an array('d') or a numpy array of float64 of at most 1,024, with the draws of a seed, and gives the state reached.

    `out` is untouched where the call is refused."""
    return _writing(_draws, out, *_of_seed(seed)).state


def draws(seed: int, count: int) -> Seeded:
    """The first `count` draws of a seed, at most 1,024, the same for everyone who names the seed, and the state reached.

        >>> values, state = draws(1, 2)
        >>> values[0]
        0.5116662674117833
        >>> draws(state, 3).values == draws(1, 5).values[2:]
        True

    The state is a 64-bit number that is not 0, and begins as the seed: a seed of 0 is refused with 14. A step of it is Marsaglia's xorshift64, x ^= x << 13,
    x ^= x >> 7, x ^= x << 17. A draw takes twelve steps, adds up the top 32 bits after each of them, takes away 6 * 2**32 and divides by 2**32, exactly. It
    is at least -6 and below 6, and never -0.0; the first n draws do not depend on how many follow. A sum of twelve stands for a standard normal number and
    is none: mean 0 and variance 1 but for less than 1e-8, excess kurtosis -0.1, fewer large draws, and none beyond 6.

    Many lists or paths come from one seed, each from the state that the one before it reached. The seeds 1, 2, 3 and so on do not serve for that: they give
    no independent draws. The first draws of the seeds 1 to 10,000 have the mean -0.51, and the states of the seed a ^ b are those of a and of b, joined by
    ^."""
    count = _whole("count", count)
    # more than the limit are refused whatever the number
    out = array("d", bytes(8 * (count if count <= 1024 else 1025)))
    state = draws_into(seed, out)
    return Seeded(out.tolist(), state)


def generate_seeded_into(
    alpha: float, pillars: Numbers, sigmas: Numbers, times: Numbers, factors: Numbers, grid: Numbers, seed: int, out
) -> int:
    """Writes the path to the front of `out`, as generate_into does, and gives the state reached. `out` is untouched where the call is refused."""
    return _path_into(_generate_seeded, out, alpha, pillars, sigmas, times, factors, grid, _of_seed, seed).state


def generate_seeded(
    alpha: float, pillars: Numbers, sigmas: Numbers, times: Numbers, factors: Numbers, grid: Numbers, seed: int
) -> Seeded:
    """Kind 12 from a seed: the rates of generate on as many draws of the seed as the grid has times, and the state reached.

        >>> lists = 0.1, [0], [0.01], [0, 1, 2], [1, 0.97, 0.94], [0.5, 1]
        >>> rates, state = generate_seeded(*lists, 2026)
        >>> rates == generate(*lists, draws(2026, 2).values)
        True

    The state is the seed of the next path, or of the next draws. A seed of 0 is refused with 14, directly after 6 and before 7, for an empty grid too."""
    report, rates = _path(_generate_seeded, alpha, pillars, sigmas, times, factors, grid, _of_seed, seed)
    return Seeded(rates, report.state)


def generate_published_seeded_into(
    alpha: float, pillars: Numbers, sigmas: Numbers, times: Numbers, factors: Numbers, grid: Numbers, seed: int, out
) -> int:
    """generate_published_seeded as generate_seeded_into: writes to the front of `out`, and gives the state reached."""
    return _path_into(_generate_published_seeded, out, alpha, pillars, sigmas, times, factors, grid, _of_seed, seed).state


def generate_published_seeded(
    alpha: float, pillars: Numbers, sigmas: Numbers, times: Numbers, factors: Numbers, grid: Numbers, seed: int
) -> Seeded:
    """Kind 13 from a seed: the rates of generate_published on as many draws of the seed as the grid has times, and the state reached.

    As generate_seeded; more than one pillar is refused with 15, after 14 and 7."""
    report, rates = _path(_generate_published_seeded, alpha, pillars, sigmas, times, factors, grid, _of_seed, seed)
    return Seeded(rates, report.state)


# ---- run files


def piece(file: bytes, k: int) -> bytes:
    """Piece k of what the program prints for a run file: 0 is the header, or `refused 1` where the file breaks its layout; k + 1 has the lines of
    job k; after the last piece it is empty."""
    return _piece_into(file, k, (c_uint8 * PIECE_BYTES)())


def _piece_into(file, k, out) -> bytes:
    if not isinstance(file, (bytes, bytearray, memoryview)):
        raise TypeError(f"file: bytes are wanted, not {type(file).__name__}")
    held = bytes(file)
    report = _served(_piece((c_uint8 * (len(held) or 1)).from_buffer_copy(held or b"\0"), len(held), _whole("k", k), out, len(out)))
    return ctypes.string_at(out, report.count)


def run_file(file: bytes) -> bytes:
    """All that the program prints for a run file."""
    out = (c_uint8 * PIECE_BYTES)()
    printed, k = [], 0
    while not printed or printed[-1]:
        printed.append(_piece_into(file, k, out))
        k += 1
    return b"".join(printed)
