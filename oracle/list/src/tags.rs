//! Tags of a CT image's header, as DICOM PS3.3 has them: clustered by group.

const fn tag(group: u32, element: u32) -> u32 {
    group * 65_536 + element
}

pub const PATIENT_NAME: u32 = tag(0x0010, 0x0010);
pub const PATIENT_BIRTH_DATE: u32 = tag(0x0010, 0x0030);
pub const RESCALE_INTERCEPT: u32 = tag(0x0028, 0x1052);
pub const RESCALE_SLOPE: u32 = tag(0x0028, 0x1053);

/// Image Pixel's group, and the next group's first key.
pub const IMAGE_GROUP: [u32; 2] = [tag(0x0028, 0), tag(0x0029, 0)];

/// What a scanner writes, the rescale pair left out.
pub const RECEIVED: [u32; 46] = [
    tag(0x0008, 0x0005), // Specific Character Set
    tag(0x0008, 0x0008), // Image Type
    tag(0x0008, 0x0016), // SOP Class UID
    tag(0x0008, 0x0018), // SOP Instance UID
    tag(0x0008, 0x0020), // Study Date
    tag(0x0008, 0x0021), // Series Date
    tag(0x0008, 0x0030), // Study Time
    tag(0x0008, 0x0050), // Accession Number
    tag(0x0008, 0x0060), // Modality
    tag(0x0008, 0x0070), // Manufacturer
    tag(0x0008, 0x0080), // Institution Name
    tag(0x0008, 0x0090), // Referring Physician's Name
    tag(0x0008, 0x1030), // Study Description
    tag(0x0008, 0x103e), // Series Description
    PATIENT_NAME,
    tag(0x0010, 0x0020), // Patient ID
    PATIENT_BIRTH_DATE,
    tag(0x0010, 0x0040), // Patient's Sex
    tag(0x0010, 0x1010), // Patient's Age
    tag(0x0018, 0x0015), // Body Part Examined
    tag(0x0018, 0x0050), // Slice Thickness
    tag(0x0018, 0x0060), // KVP
    tag(0x0018, 0x1150), // Exposure Time
    tag(0x0018, 0x1151), // X-Ray Tube Current
    tag(0x0018, 0x5100), // Patient Position
    tag(0x0020, 0x000d), // Study Instance UID
    tag(0x0020, 0x000e), // Series Instance UID
    tag(0x0020, 0x0010), // Study ID
    tag(0x0020, 0x0011), // Series Number
    tag(0x0020, 0x0013), // Instance Number
    tag(0x0020, 0x0032), // Image Position (Patient)
    tag(0x0020, 0x0037), // Image Orientation (Patient)
    tag(0x0020, 0x0052), // Frame of Reference UID
    tag(0x0020, 0x1041), // Slice Location
    tag(0x0028, 0x0002), // Samples per Pixel
    tag(0x0028, 0x0004), // Photometric Interpretation
    tag(0x0028, 0x0010), // Rows
    tag(0x0028, 0x0011), // Columns
    tag(0x0028, 0x0030), // Pixel Spacing
    tag(0x0028, 0x0100), // Bits Allocated
    tag(0x0028, 0x0101), // Bits Stored
    tag(0x0028, 0x0102), // High Bit
    tag(0x0028, 0x0103), // Pixel Representation
    tag(0x0028, 0x1050), // Window Center
    tag(0x0028, 0x1051), // Window Width
    tag(0x7fe0, 0x0010), // Pixel Data
];
