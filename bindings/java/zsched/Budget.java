package zsched;

/**
 * Tokens that many calls share, as in gRPC's retry throttling. A failed attempt takes a token, and one
 * that doesn't fail adds the ratio, up to the number of tokens at first. A retry follows only while
 * more than half of that number are there; else the call gives up, as if its schedule were done. So
 * calls stop retrying when most of them fail. Threads may share a budget.
 */
public final class Budget {
    private final double most;
    private final double ratio;
    private double tokens;

    /** Makes a budget. gRPC has 10 tokens and the ratio 0.1. Throws unless both are finite and at least 0. */
    public Budget(double tokens, double ratio) {
        if (!(tokens >= 0 && Double.isFinite(tokens) && ratio >= 0 && Double.isFinite(ratio))) {
            throw new IllegalArgumentException("zsched: a budget of " + tokens + " tokens and the ratio " + ratio);
        }
        this.most = tokens;
        this.ratio = ratio;
        this.tokens = tokens;
    }

    /** Returns the tokens that are there. */
    public double tokens() { return change(0); }

    /** Adds the ratio after an attempt that didn't fail. */
    public void add() { change(ratio); }

    /** Takes a token after a failed attempt. Returns whether a retry may follow. */
    public boolean take() { return change(-1) > most / 2; }

    private synchronized double change(double by) { return tokens = Math.max(0, Math.min(most, tokens + by)); }
}
