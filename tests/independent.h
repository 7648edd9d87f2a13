/* The calls once more, written from the definitions of documents 01 and 02 with naive arithmetic and linear algebra and
   from nothing else: what the library is tested against. It shares no algorithm with the library.

   curve           the modulus and the coefficients
   element         of the ring, as a vector by pole number: place 3i + 4j holds the coefficient of x^i y^j, j at most 2
   ideal           nonzero, as generators: for each residue modulo 3 a monic element of least pole number with that
                   residue
   nonsingular     1 if the curve is
   is_basis        1 if a record is one
   ideal_of        the ideal that a record's polynomials generate
   product, star   J K and J*
   together        J + K, the ideal that both generate
   intersection    the elements that are in both J and K
   reduced         (J*)*
   record_of       the record of a reduced ideal
   polynomials     those of a record; their number is returned
   on_curve        1 if F is 0 at the pair
   multiplicity    the largest n for which an ideal lies inside the n-th power of another, that of a point
   put_point       the record of kind 11 of a pair; its length is returned
   is_typical      1 if a record is of kind 31 with f2 not 0
   is_short        1 if p is above 3 and c5, c6 and c8 are 0
   serves          1 if the formulas of change request 2026-08 serve for two accepted records
   width_of        the bit length of p - 1
   bits_of         how many bits the numbers of a short record take, by the kind that it stands for
   short_length    the length of such a record
   put_bits        sets the n-th number of w bits
   shorten         the short form of a record; its length is returned
   lengthen        the record that a short one of the right length stands for; its length is returned
   short_refusal   the number of the refusal of a short record, 0 if it is accepted
   is_prime        1 if a number is
   refusal_of      the number of the refusal of a call, 0 if it is accepted
   answer_of       what an accepted call returns; its result buffer is filled, by POINTS_OF in rising order
   by_definition   both together */
#ifndef INDEPENDENT_H
#define INDEPENDENT_H
#include "call.h"
#include "space.h"

struct curve {
    uint32_t p, c[9];
};

struct ideal {
    uint32_t g[3][WIDTH];
    unsigned pole[3];
};

/* The terms of F: term t is term(k, t) times x^term_x[t] y^term_y[t]. The first is y^3. */
enum { TERMS = 11 };
extern const unsigned term_x[TERMS], term_y[TERMS];
uint32_t term(const struct curve *k, int t);

int nonsingular(const struct curve *k);

int is_basis(const struct curve *k, const uint8_t *record);
struct ideal ideal_of(const struct curve *k, const uint8_t *record);
struct ideal product(const struct curve *k, const struct ideal *a, const struct ideal *b);
struct ideal star(const struct curve *k, const struct ideal *a);
struct ideal together(const struct curve *k, const struct ideal *a, const struct ideal *b);
struct ideal intersection(const struct curve *k, const struct ideal *a, const struct ideal *b);
struct ideal reduced(const struct curve *k, const struct ideal *a);
size_t record_of(const struct curve *k, const struct ideal *a, uint8_t *record);

unsigned polynomials(const uint8_t *record, uint32_t v[3][WIDTH]);
int on_curve(const struct curve *k, uint32_t x, uint32_t y);
unsigned multiplicity(const struct curve *k, const struct ideal *a, const struct ideal *point);
size_t put_point(const struct curve *k, uint32_t x, uint32_t y, uint8_t *record);

int is_typical(const uint8_t *record);
int is_short(const struct curve *k);
int serves(const struct curve *k, const uint8_t *a, const uint8_t *b);

unsigned width_of(uint32_t p);
unsigned bits_of(uint32_t p, uint32_t kind);
size_t short_length(uint32_t p, uint32_t kind);
void put_bits(uint8_t *b, unsigned w, unsigned n, uint32_t a);
size_t shorten(uint32_t p, const uint8_t *record, uint8_t *out);
size_t lengthen(uint32_t p, const uint8_t *record, uint8_t *out);
int32_t short_refusal(const struct curve *k, struct slice s);

int is_prime(uint32_t p);

/* The points of POINTS_OF come in rising order; all pairs are tried, so p must be small. */
enum { TRIED = 2000 };

struct curve curve_of(const uint8_t *record);
int32_t refusal_of(const struct call *c);
int32_t answer_of(const struct call *c);
int32_t by_definition(const struct call *c);

#endif
