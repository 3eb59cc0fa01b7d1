#include "dictionary.h"

#include <stddef.h>
#include <string.h>

/* The rules' table (5.14), with the names of PS3.6 and PS3.7. A row here changes how sets are read. */
static const struct named named[] = {
    { 0x00000000, "UL", "Command Group Length" },
    { 0x00000002, "UI", "Affected SOP Class UID" },
    { 0x00000003, "UI", "Requested SOP Class UID" },
    { 0x00000100, "US", "Command Field" },
    { 0x00000110, "US", "Message ID" },
    { 0x00000120, "US", "Message ID Being Responded To" },
    { 0x00000800, "US", "Command Data Set Type" },
    { 0x00000900, "US", "Status" },
    { 0x00001000, "UI", "Affected SOP Instance UID" },
    { 0x00001001, "UI", "Requested SOP Instance UID" },
    { 0x00001008, "US", "Action Type ID" },
    { 0x00081150, "UI", "Referenced SOP Class UID" },
    { 0x00081155, "UI", "Referenced SOP Instance UID" },
    { 0x00280002, "US", "Samples per Pixel" },
    { 0x00280004, "CS", "Photometric Interpretation" },
    { 0x00280010, "US", "Rows" },
    { 0x00280011, "US", "Columns" },
    { 0x00280100, "US", "Bits Allocated" },
    { 0x00280101, "US", "Bits Stored" },
    { 0x00280102, "US", "High Bit" },
    { 0x00280103, "US", "Pixel Representation" },
    { 0x20000010, "IS", "Number of Copies" },
    { 0x20000020, "CS", "Print Priority" },
    { 0x20000030, "CS", "Medium Type" },
    { 0x20000040, "CS", "Film Destination" },
    { 0x20000050, "LO", "Film Session Label" },
    { 0x20100010, "ST", "Image Display Format" },
    { 0x20100040, "CS", "Film Orientation" },
    { 0x20100060, "CS", "Magnification Type" },
    { 0x20100500, "SQ", "Referenced Film Session Sequence" },
    { 0x20100510, "SQ", "Referenced Image Box Sequence" },
    { 0x20200010, "US", "Image Box Position" },
    { 0x20200020, "CS", "Polarity" },
    { 0x20200110, "SQ", "Basic Grayscale Image Sequence" },
    { 0x7FE00010, "OW", "Pixel Data" },
};

/* What else the print service classes of PS3.3 and the commands of PS3.7 have, by PS3.6 and PS3.7. A row here changes
 * what is shown, and never how a set is read. */
static const struct named others[] = {
    { 0x00000001, "UL", "Command Length to End" },
    { 0x00000010, "SH", "Command Recognition Code" },
    { 0x00000200, "AE", "Initiator" },
    { 0x00000300, "AE", "Receiver" },
    { 0x00000400, "AE", "Find Location" },
    { 0x00000600, "AE", "Move Destination" },
    { 0x00000700, "US", "Priority" },
    { 0x00000850, "US", "Number of Matches" },
    { 0x00000860, "US", "Response Sequence Number" },
    { 0x00000901, "AT", "Offending Element" },
    { 0x00000902, "LO", "Error Comment" },
    { 0x00000903, "US", "Error ID" },
    { 0x00001002, "US", "Event Type ID" },
    { 0x00001005, "AT", "Attribute Identifier List" },
    { 0x00001020, "US", "Number of Remaining Sub-operations" },
    { 0x00001021, "US", "Number of Completed Sub-operations" },
    { 0x00001022, "US", "Number of Failed Sub-operations" },
    { 0x00001023, "US", "Number of Warning Sub-operations" },
    { 0x00001030, "AE", "Move Originator Application Entity Title" },
    { 0x00001031, "US", "Move Originator Message ID" },
    { 0x00080005, "CS", "Specific Character Set" },
    { 0x00080008, "CS", "Image Type" },
    { 0x00080012, "DA", "Instance Creation Date" },
    { 0x00080013, "TM", "Instance Creation Time" },
    { 0x00080014, "UI", "Instance Creator UID" },
    { 0x00080016, "UI", "SOP Class UID" },
    { 0x00080018, "UI", "SOP Instance UID" },
    { 0x0008001A, "UI", "Related General SOP Class UID" },
    { 0x0008001B, "UI", "Original Specialized SOP Class UID" },
    { 0x00080070, "LO", "Manufacturer" },
    { 0x00080110, "SQ", "Coding Scheme Identification Sequence" },
    { 0x00080201, "SH", "Timezone Offset From UTC" },
    { 0x00081010, "SH", "Station Name" },
    { 0x00081090, "LO", "Manufacturer's Model Name" },
    { 0x00081140, "SQ", "Referenced Image Sequence" },
    { 0x00081160, "IS", "Referenced Frame Number" },
    { 0x00181000, "LO", "Device Serial Number" },
    { 0x00181020, "LO", "Software Versions" },
    { 0x00181200, "DA", "Date of Last Calibration" },
    { 0x00181201, "TM", "Time of Last Calibration" },
    { 0x0018A001, "SQ", "Contributing Equipment Sequence" },
    { 0x00200013, "IS", "Instance Number" },
    { 0x00280006, "US", "Planar Configuration" },
    { 0x00280008, "IS", "Number of Frames" },
    { 0x00280030, "DS", "Pixel Spacing" },
    { 0x00280034, "IS", "Pixel Aspect Ratio" },
    { 0x00280106, "US or SS", "Smallest Image Pixel Value" },
    { 0x00280107, "US or SS", "Largest Image Pixel Value" },
    { 0x00280120, "US or SS", "Pixel Padding Value" },
    { 0x00280121, "US or SS", "Pixel Padding Range Limit" },
    { 0x00281050, "DS", "Window Center" },
    { 0x00281051, "DS", "Window Width" },
    { 0x00281052, "DS", "Rescale Intercept" },
    { 0x00281053, "DS", "Rescale Slope" },
    { 0x00281054, "LO", "Rescale Type" },
    { 0x00281101, "US or SS", "Red Palette Color Lookup Table Descriptor" },
    { 0x00281102, "US or SS", "Green Palette Color Lookup Table Descriptor" },
    { 0x00281103, "US or SS", "Blue Palette Color Lookup Table Descriptor" },
    { 0x00281201, "OW", "Red Palette Color Lookup Table Data" },
    { 0x00281202, "OW", "Green Palette Color Lookup Table Data" },
    { 0x00281203, "OW", "Blue Palette Color Lookup Table Data" },
    { 0x00282000, "OB", "ICC Profile" },
    { 0x00282002, "CS", "Color Space" },
    { 0x00283000, "SQ", "Modality LUT Sequence" },
    { 0x00283002, "US or SS", "LUT Descriptor" },
    { 0x00283003, "LO", "LUT Explanation" },
    { 0x00283004, "LO", "Modality LUT Type" },
    { 0x00283006, "US or OW", "LUT Data" },
    { 0x00283010, "SQ", "VOI LUT Sequence" },
    { 0x01000410, "CS", "SOP Instance Status" },
    { 0x01000420, "DT", "SOP Authorization DateTime" },
    { 0x01000424, "LT", "SOP Authorization Comment" },
    { 0x01000426, "LO", "Authorization Equipment Certification Number" },
    { 0x2000001E, "SQ", "Printer Configuration Sequence" },
    { 0x20000060, "IS", "Memory Allocation" },
    { 0x20000061, "IS", "Maximum Memory Allocation" },
    { 0x20000062, "CS", "Color Image Printing Flag" },
    { 0x20000063, "CS", "Collation Flag" },
    { 0x20000065, "CS", "Annotation Flag" },
    { 0x20000067, "CS", "Image Overlay Flag" },
    { 0x20000069, "CS", "Presentation LUT Flag" },
    { 0x2000006A, "CS", "Image Box Presentation LUT Flag" },
    { 0x200000A0, "US", "Memory Bit Depth" },
    { 0x200000A1, "US", "Printing Bit Depth" },
    { 0x200000A2, "SQ", "Media Installed Sequence" },
    { 0x200000A4, "SQ", "Other Media Available Sequence" },
    { 0x200000A8, "SQ", "Supported Image Display Formats Sequence" },
    { 0x20000500, "SQ", "Referenced Film Box Sequence" },
    { 0x20000510, "SQ", "Referenced Stored Print Sequence" },
    { 0x20100030, "CS", "Annotation Display Format ID" },
    { 0x20100050, "CS", "Film Size ID" },
    { 0x20100052, "CS", "Printer Resolution ID" },
    { 0x20100054, "CS", "Default Printer Resolution ID" },
    { 0x20100080, "CS", "Smoothing Type" },
    { 0x201000A6, "CS", "Default Magnification Type" },
    { 0x201000A7, "CS", "Other Magnification Types Available" },
    { 0x201000A8, "CS", "Default Smoothing Type" },
    { 0x201000A9, "CS", "Other Smoothing Types Available" },
    { 0x20100100, "CS", "Border Density" },
    { 0x20100110, "CS", "Empty Image Density" },
    { 0x20100120, "US", "Min Density" },
    { 0x20100130, "US", "Max Density" },
    { 0x20100140, "CS", "Trim" },
    { 0x20100150, "ST", "Configuration Information" },
    { 0x20100152, "LT", "Configuration Information Description" },
    { 0x20100154, "IS", "Maximum Collated Films" },
    { 0x2010015E, "US", "Illumination" },
    { 0x20100160, "US", "Reflected Ambient Light" },
    { 0x20100376, "DS", "Printer Pixel Spacing" },
    { 0x20100520, "SQ", "Referenced Basic Annotation Box Sequence" },
    { 0x20200030, "DS", "Requested Image Size" },
    { 0x20200040, "CS", "Requested Decimate/Crop Behavior" },
    { 0x20200050, "CS", "Requested Resolution ID" },
    { 0x202000A0, "CS", "Requested Image Size Flag" },
    { 0x202000A2, "CS", "Decimate/Crop Result" },
    { 0x20200111, "SQ", "Basic Color Image Sequence" },
    { 0x20200130, "SQ", "Referenced Image Overlay Box Sequence" },
    { 0x20200140, "SQ", "Referenced VOI LUT Box Sequence" },
    { 0x20300010, "US", "Annotation Position" },
    { 0x20300020, "LO", "Text String" },
    { 0x20400010, "SQ", "Referenced Overlay Plane Sequence" },
    { 0x20400011, "US", "Referenced Overlay Plane Groups" },
    { 0x20400020, "SQ", "Overlay Pixel Data Sequence" },
    { 0x20400060, "CS", "Overlay Magnification Type" },
    { 0x20400070, "CS", "Overlay Smoothing Type" },
    { 0x20400072, "CS", "Overlay or Image Magnification" },
    { 0x20400074, "US", "Magnify to Number of Columns" },
    { 0x20400080, "CS", "Overlay Foreground Density" },
    { 0x20400082, "CS", "Overlay Background Density" },
    { 0x20400090, "CS", "Overlay Mode" },
    { 0x20400100, "CS", "Threshold Density" },
    { 0x20400500, "SQ", "Referenced Image Box Sequence" },
    { 0x20500010, "SQ", "Presentation LUT Sequence" },
    { 0x20500020, "CS", "Presentation LUT Shape" },
    { 0x20500500, "SQ", "Referenced Presentation LUT Sequence" },
    { 0x21000010, "SH", "Print Job ID" },
    { 0x21000020, "CS", "Execution Status" },
    { 0x21000030, "CS", "Execution Status Info" },
    { 0x21000040, "DA", "Creation Date" },
    { 0x21000050, "TM", "Creation Time" },
    { 0x21000070, "AE", "Originator" },
    { 0x21000140, "AE", "Destination AE" },
    { 0x21000160, "SH", "Owner ID" },
    { 0x21000170, "IS", "Number of Films" },
    { 0x21000500, "SQ", "Referenced Print Job Sequence" },
    { 0x21100010, "CS", "Printer Status" },
    { 0x21100020, "CS", "Printer Status Info" },
    { 0x21100030, "LO", "Printer Name" },
    { 0x21100099, "SH", "Print Queue ID" },
    { 0x21200010, "CS", "Queue Status" },
    { 0x21200050, "SQ", "Print Job Description Sequence" },
    { 0x21200070, "SQ", "Referenced Print Job Sequence" },
};

const struct form opaque = { "--", BYTES, 1, 8 };

static const struct form forms[] = {
    { "AE", TEXT, 1, 8 },   { "AS", TEXT, 1, 8 },   { "AT", TAGS, 4, 8 },      { "CS", TEXT, 1, 8 },
    { "DA", TEXT, 1, 8 },   { "DS", TEXT, 1, 8 },   { "DT", TEXT, 1, 8 },      { "FD", REAL, 8, 8 },
    { "FL", REAL, 4, 8 },   { "IS", TEXT, 1, 8 },   { "LO", TEXT, 1, 8 },      { "LT", TEXT, 1, 8 },
    { "OB", BYTES, 1, 12 }, { "OF", REAL, 4, 12 },  { "OW", BYTES, 1, 12 },    { "PN", TEXT, 1, 8 },
    { "SH", TEXT, 1, 8 },   { "SL", SIGNED, 4, 8 }, { "SQ", SEQUENCE, 1, 12 }, { "SS", SIGNED, 2, 8 },
    { "ST", TEXT, 1, 8 },   { "TM", TEXT, 1, 8 },   { "UI", TEXT, 1, 8 },      { "UL", NUMBER, 4, 8 },
    { "UN", BYTES, 1, 12 }, { "US", NUMBER, 2, 8 }, { "UT", TEXT, 1, 12 },
};

static const struct named *row_of(const struct named *rows, size_t count, uint32_t tag)
{
    for (size_t i = 0; i < count; i++)
        if (rows[i].tag == tag)
            return &rows[i];
    return NULL;
}

const struct named *named_tag(uint32_t tag)
{
    return row_of(named, sizeof named / sizeof *named, tag);
}

/* The first tag of any group may tell its length. */
const struct named *shown_tag(uint32_t tag)
{
    static const struct named group_length = { 0, "UL", "Group Length" };
    const struct named *row = named_tag(tag);
    if (row == NULL)
        row = row_of(others, sizeof others / sizeof *others, tag);
    return row == NULL && tag % 0x10000 == 0 ? &group_length : row;
}

const struct form *form_of(const char *vr)
{
    for (size_t i = 0; i < sizeof forms / sizeof *forms; i++)
        if (memcmp(forms[i].vr, vr, 2) == 0)
            return &forms[i];
    return NULL;
}
