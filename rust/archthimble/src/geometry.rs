use crate::ffi;
use crate::refusal::Refusal;

/// What a boot sector says of its volume.
///
/// ```
/// use archthimble::Geometry;
///
/// let mut sector = [0; 512];
/// sector[11..13].copy_from_slice(&512u16.to_le_bytes()); // sector size
/// sector[13] = 8; // sectors per cluster
/// sector[48..56].copy_from_slice(&786_432u64.to_le_bytes()); // where the MFT starts
/// sector[64] = -10i8 as u8; // file records of 2^10 bytes
/// sector[510..].copy_from_slice(&[0x55, 0xaa]);
///
/// let geometry = Geometry::read(&sector)?;
/// assert_eq!((geometry.cluster_size, geometry.mft_lcn, geometry.record_size), (4096, 786_432, 1024));
///
/// sector[13] = 3;
/// assert_eq!(Geometry::read(&sector).unwrap_err().name(), "sectors per cluster");
/// # Ok::<(), archthimble::Refusal>(())
/// ```
#[derive(Clone, Copy, Debug, PartialEq, Eq, Hash)]
pub struct Geometry {
    /// Bytes a sector: 512, 1,024, 2,048 or 4,096.
    pub sector_size: u64,
    /// Bytes a cluster: a power of two from 512 to 2,097,152.
    pub cluster_size: u64,
    /// Sectors of the volume.
    pub total_sectors: u64,
    /// The cluster at which the MFT starts; never 0.
    pub mft_lcn: u64,
    /// The cluster at which the MFT's mirror starts.
    pub mirror_lcn: u64,
    /// Bytes a file record.
    pub record_size: u64,
    /// The info for the size of index records, as it stands in the sector.
    pub index_info: i8,
    /// The volume's serial number.
    pub serial: u64,
}

impl Geometry {
    /// Reads a boot sector; bytes past 512 are ignored.
    ///
    /// # Errors
    /// 1 to 7, the first that fits.
    pub fn read(sector: &[u8]) -> Result<Geometry, Refusal> {
        let [sector_size, cluster_size, total_sectors, mft_lcn, mirror_lcn, record_size, index_info, serial] = ffi::geometry(sector)?;
        // the info is one byte in the sector, which the library widens with its sign
        let index_info = index_info as i8;
        Ok(Geometry { sector_size, cluster_size, total_sectors, mft_lcn, mirror_lcn, record_size, index_info, serial })
    }
}
