//! Every kind of GOOD answer.

use crate::listed::listed;

listed! {
    /// What a call that was answered GOOD did.
    Good {
        /// Check 6: zero length.
        ZeroLength,
        /// Check 6: list length zero.
        NoList,
        /// Check 7: a proper list and length zero.
        ZeroLengthWithList,
        /// READ.
        Read,
        /// WRITE.
        Write,
        /// XPWRITE of either set.
        XorWrite,
        /// XDWRITE, the XOR sent to the secondary.
        XorSent,
        /// XDWRITE with Mirror, the data sent to the secondary.
        MirrorSent,
        /// XDWRITE of either set, the data written and the XOR retained.
        XorRetained,
        /// XDWRITE with Mirror, the data written and retained.
        MirrorRetained,
        /// XDWRITE with NDisc or XDWRITE(10) with DISABLE WRITE, the XOR
        /// retained.
        XorRetainedOnly,
        /// XDWRITE with Mirror and NDisc, the data retained.
        MirrorRetainedOnly,
        /// XDREAD of either set, of what an XDWRITE of either set retained.
        FetchedXdWrite,
        /// XDREAD of either set, of what a REGENERATE retained.
        FetchedRegenerate,
        /// XDWRITEREAD(10), the data written and the XOR handed over.
        XorHanded,
        /// XDWRITEREAD(10) with DISABLE WRITE, the XOR handed over.
        XorHandedOnly,
        /// REBUILD.
        Rebuilt,
        /// REBUILD with Int Data.
        RebuiltWithData,
        /// REBUILD FFFFFFFFh.
        RebuiltToTheEnd,
        /// REGENERATE.
        Regenerated,
        /// REGENERATE with Int Data.
        RegeneratedWithData,
        /// Hard reset of a drive that had results.
        ResetDropped,
        /// Hard reset of a drive that had none.
        ResetNothing,
        /// A drive marked present.
        MarkedPresent,
        /// A drive marked failed.
        MarkedFailed,
    }
}
