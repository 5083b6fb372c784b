/* Answers of Symmetrica, one request a line on standard input. `schubert 1 3 2` prints the Schubert polynomial, a line for
   each monomial: its coefficient, two spaces and its exponents. `plethysm s 2h2,1+1m1 3p1` prints the plethysm of the two sums
   in the basis s, a line for each partition. `change h e 3,1,1` prints h of the partition in the basis e in this way, and `table h e 15`
   changes all partitions of 15, one by one, and prints how many terms there are in all. A line `--` ends each answer. */
#include <stdio.h>
#include <stdlib.h>
#include <string.h>
#include <symmetrica/def.h>
#include <symmetrica/macro.h>

static OP vector_of(int n, const int *numbers)
{
    OP v = callocobject();
    m_il_v((INT)n, v);
    for (int i = 0; i < n; i++)
        M_I_I((INT)numbers[i], S_V_I(v, (INT)i));
    return v;
}

static void print_terms(OP sum, int whole_words)
{
    for (OP z = sum; z != NULL; z = whole_words ? S_PO_N(z) : S_S_N(z)) {
        OP label = whole_words ? S_PO_S(z) : S_S_S(z);
        OP c = whole_words ? S_PO_K(z) : S_S_K(z);
        if (nullp(c))
            continue;
        /* its own printing breaks what it takes for long lines */
        zeilenposition = 0;
        fprint(stdout, c);
        fputs("  ", stdout);
        INT n = whole_words ? S_V_LI(label) : S_PA_LI(label);
        for (INT i = 0; i < n; i++)
            printf("%s%ld", i ? "," : "", (long)(whole_words ? S_V_II(label, i) : S_PA_II(label, n - 1 - i)));
        fputs("\n", stdout);
    }
}

static void schubert(int n, const int *letters)
{
    OP v = vector_of(n, letters), p = callocobject(), f = callocobject();
    b_ks_p(VECTOR, v, p);
    m_perm_schubert_monom_summe(p, f);
    print_terms(f, 1);
    freeall(p);
    freeall(f);
}

static const char BASES_IN_ORDER[] = "mehps";

/* The changes of an element of one basis into another, by the places of their letters. */
static INT (*const CHANGE_OF[5][5])() = {
    {copy, t_MONOMIAL_ELMSYM, t_MONOMIAL_HOMSYM, t_MONOMIAL_POWSYM, t_MONOMIAL_SCHUR},
    {t_ELMSYM_MONOMIAL, copy, t_ELMSYM_HOMSYM, t_ELMSYM_POWSYM, t_ELMSYM_SCHUR},
    {t_HOMSYM_MONOMIAL, t_HOMSYM_ELMSYM, copy, t_HOMSYM_POWSYM, t_HOMSYM_SCHUR},
    {t_POWSYM_MONOMIAL, t_POWSYM_ELMSYM, t_POWSYM_HOMSYM, copy, t_POWSYM_SCHUR},
    {t_SCHUR_MONOMIAL, t_SCHUR_ELMSYM, t_SCHUR_HOMSYM, t_SCHUR_POWSYM, copy},
};

/* An element of one basis in another one. */
static OP changed(char from, char target, OP one)
{
    OP f = callocobject();
    CHANGE_OF[strchr(BASES_IN_ORDER, from) - BASES_IN_ORDER][strchr(BASES_IN_ORDER, target) - BASES_IN_ORDER](one, f);
    return f;
}

/* The element of a basis with this label, in another one. */
static OP element(char from, char target, OP label)
{
    OP one = callocobject();
    switch (from) {
    case 'm': m_pa_mon(label, one); break;
    case 'e': m_pa_e(label, one); break;
    case 'h': m_pa_h(label, one); break;
    case 'p': m_pa_ps(label, one); break;
    case 's': m_pa_s(label, one); break;
    }
    OP f = changed(from, target, one);
    freeall(one);
    return f;
}

/* An atom, in m. */
static OP atom(char letter, int n, const int *parts)
{
    OP label = callocobject();
    b_ks_pa(VECTOR, vector_of(n, parts), label);
    return element(letter, 'm', label);
}

/* A sum of atoms with coefficients, in m. */
static OP sum_of(char *text)
{
    OP sum = callocobject();
    init(MONOMIAL, sum);
    for (char *word = strtok(text, "+"); word != NULL; word = strtok(NULL, "+")) {
        int parts[16], n = 0;
        OP c = callocobject(), term = callocobject(), more = callocobject();
        M_I_I((INT)strtol(word, &word, 10), c);
        char letter = *word++;
        while (*word) {
            parts[n++] = strtol(word, &word, 10);
            if (*word == ',')
                word++;
        }
        /* Symmetrica's partitions rise */
        for (int i = 0; i < n / 2; i++) {
            int a = parts[i];
            parts[i] = parts[n - 1 - i];
            parts[n - 1 - i] = a;
        }
        mult(c, atom(letter, n, parts), term);
        add(sum, term, more);
        sum = more;
    }
    return sum;
}

static void plethysm_in(char target, char *outer, char *inner)
{
    OP f = sum_of(outer), g = sum_of(inner), in_m = callocobject();
    if (nullp(f))
        return;
    plet_monomial_monomial(f, g, in_m);
    OP answer = changed('m', target, in_m);
    print_terms(answer, 0);
    freeall(in_m);
    freeall(answer);
}

/* The partition that is written with its parts falling. */
static OP label_of(char *text)
{
    int parts[64], n = 0;
    for (char *word = strtok(text, ","); word != NULL; word = strtok(NULL, ","))
        parts[n++] = atoi(word);
    for (int i = 0; i < n / 2; i++) {
        int a = parts[i];
        parts[i] = parts[n - 1 - i];
        parts[n - 1 - i] = a;
    }
    OP label = callocobject();
    b_ks_pa(VECTOR, vector_of(n, parts), label);
    return label;
}

static void change(char from, char target, char *parts)
{
    OP label = label_of(parts), f = element(from, target, label);
    print_terms(f, 0);
    freeall(label);
    freeall(f);
}

static void table(char from, char target, int size)
{
    OP parts = callocobject(), of = callocobject();
    long terms = 0;
    M_I_I((INT)size, of);
    makevectorofpart(of, parts);
    for (INT i = 0; i < S_V_LI(parts); i++) {
        OP f = element(from, target, S_V_I(parts, i));
        for (OP z = f; z != NULL; z = S_S_N(z))
            terms++;
        freeall(f);
    }
    printf("%ld\n", terms);
}

int main(void)
{
    static char line[1 << 16];
    anfang();
    while (fgets(line, sizeof line, stdin)) {
        int numbers[64], n = 0;
        char *words[64];
        char *name = strtok(line, " \n");
        if (name == NULL)
            continue;
        while ((words[n] = strtok(NULL, " \n")) != NULL)
            n++;
        if (strcmp(name, "schubert") == 0) {
            for (int i = 0; i < n; i++)
                numbers[i] = atoi(words[i]);
            schubert(n, numbers);
        } else if (strcmp(name, "plethysm") == 0)
            plethysm_in(*words[0], words[1], words[2]);
        else if (strcmp(name, "change") == 0)
            change(*words[0], *words[1], words[2]);
        else if (strcmp(name, "table") == 0)
            table(*words[0], *words[1], atoi(words[2]));
        puts("--");
        fflush(stdout);
    }
    ende();
    return 0;
}
